# find_package(lnc_predicates) gives the targets lnc_predicates::shared and lnc_predicates::static, wherever this folder was installed to.
get_filename_component(_lnc_prefix "${CMAKE_CURRENT_LIST_DIR}/../../.." ABSOLUTE)
string(REGEX MATCH "^[0-9]+" _lnc_major "${lnc_predicates_VERSION}")
if(APPLE)
  set(_lnc_shared liblnc_predicates.${_lnc_major}.dylib)
  set(_lnc_soname @rpath/${_lnc_shared})
else()
  set(_lnc_shared liblnc_predicates.so.${_lnc_major})
  set(_lnc_soname ${_lnc_shared})
endif()
if(NOT TARGET lnc_predicates::shared)
  add_library(lnc_predicates::shared SHARED IMPORTED)
  set_target_properties(lnc_predicates::shared PROPERTIES IMPORTED_LOCATION "${_lnc_prefix}/lib/${_lnc_shared}"
    IMPORTED_SONAME "${_lnc_soname}" INTERFACE_INCLUDE_DIRECTORIES "${_lnc_prefix}/include")
  add_library(lnc_predicates::static STATIC IMPORTED)
  set_target_properties(lnc_predicates::static PROPERTIES IMPORTED_LOCATION "${_lnc_prefix}/lib/liblnc_predicates.a"
    INTERFACE_INCLUDE_DIRECTORIES "${_lnc_prefix}/include")
endif()
