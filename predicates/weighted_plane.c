#include <stdint.h>

static int lb0_worient2(const int64_t *v) {
  int64_t n0 = ((int64_t)v[0]);
  int64_t n1 = ((int64_t)v[6]);
  int64_t n2 = (((int64_t)n0) - ((int64_t)n1));
  int64_t n3 = ((int64_t)v[4]);
  int64_t n4 = ((int64_t)v[7]);
  int64_t n5 = (((int64_t)n3) - ((int64_t)n4));
  int64_t n6 = (((int64_t)n2) * ((int64_t)n5));
  int64_t n7 = ((int64_t)v[1]);
  int64_t n8 = ((int64_t)v[7]);
  int64_t n9 = (((int64_t)n7) - ((int64_t)n8));
  int64_t n10 = ((int64_t)v[3]);
  int64_t n11 = ((int64_t)v[6]);
  int64_t n12 = (((int64_t)n10) - ((int64_t)n11));
  int64_t n13 = (((int64_t)n9) * ((int64_t)n12));
  int64_t n14 = (((int64_t)n6) - ((int64_t)n13));
  return (((int)(((int64_t)n14) > ((int64_t)0))) - ((int)(((int64_t)n14) < ((int64_t)0))));
}

static int lb1_worient2(const int64_t *v) {
  int64_t n0 = ((int64_t)v[3]);
  int64_t n1 = (-((int64_t)n0));
  int64_t n2 = ((int64_t)v[6]);
  int64_t n3 = (((int64_t)n1) + ((int64_t)n2));
  return (((int)(((int64_t)n3) > ((int64_t)0))) - ((int)(((int64_t)n3) < ((int64_t)0))));
}

static int lb2_worient2(const int64_t *v) {
  int64_t n0 = ((int64_t)v[4]);
  int64_t n1 = ((int64_t)v[7]);
  int64_t n2 = (-((int64_t)n1));
  int64_t n3 = (((int64_t)n0) + ((int64_t)n2));
  return (((int)(((int64_t)n3) > ((int64_t)0))) - ((int)(((int64_t)n3) < ((int64_t)0))));
}

static int lb3_worient2(const int64_t *v) {
  int64_t n0 = ((int64_t)v[0]);
  int64_t n1 = ((int64_t)v[6]);
  int64_t n2 = (-((int64_t)n1));
  int64_t n3 = (((int64_t)n0) + ((int64_t)n2));
  return (((int)(((int64_t)n3) > ((int64_t)0))) - ((int)(((int64_t)n3) < ((int64_t)0))));
}

static int lb4_worient2(const int64_t *v) {
  if (((int)0)) {
    return ((int)v[0]);
  }
  int64_t n0 = ((int64_t)((int64_t)1));
  return (((int)(((int64_t)n0) > ((int64_t)0))) - ((int)(((int64_t)n0) < ((int64_t)0))));
}

int la_worient2(const int64_t *x, const int64_t *v) {
  {
    int answer = ((int)lb0_worient2(v));
    if ((((int)answer) != ((int)0))) {
      return ((int)answer);
    }
  }
  {
    int answer = ((int)lb1_worient2(v));
    if ((((int)answer) != ((int)0))) {
      return ((int)answer);
    }
  }
  {
    int answer = ((int)lb2_worient2(v));
    if ((((int)answer) != ((int)0))) {
      return ((int)answer);
    }
  }
  {
    int answer = ((int)lb3_worient2(v));
    if ((((int)answer) != ((int)0))) {
      return ((int)answer);
    }
  }
  {
    int answer = ((int)lb4_worient2(v));
    if ((((int)answer) != ((int)0))) {
      return ((int)answer);
    }
  }
  if ((((int64_t)x[0]) < ((int64_t)x[1]))) {
    if ((((int64_t)x[0]) < ((int64_t)x[2]))) {
      if ((((int64_t)x[1]) < ((int64_t)x[2]))) {
        return ((int)0);
      }
      return ((int)0);
    }
  }
  if ((((int64_t)x[1]) < ((int64_t)x[2]))) {
    if ((((int64_t)x[0]) < ((int64_t)x[2]))) {
      return ((int)0);
    }
    return ((int)0);
  }
  if ((((int64_t)x[0]) < ((int64_t)x[1]))) {
    return ((int)0);
  }
  return ((int)0);
}

static int lb0_power2(const int64_t *v) {
  int64_t n0 = ((int64_t)v[0]);
  int64_t n1 = ((int64_t)v[9]);
  int64_t n2 = (((int64_t)n0) - ((int64_t)n1));
  int64_t n3 = ((int64_t)n2);
  int64_t n4 = ((int64_t)v[1]);
  int64_t n5 = ((int64_t)v[10]);
  int64_t n6 = (((int64_t)n4) - ((int64_t)n5));
  int64_t n7 = ((int64_t)n6);
  int64_t n8 = ((int64_t)v[3]);
  int64_t n9 = ((int64_t)v[9]);
  int64_t n10 = (((int64_t)n8) - ((int64_t)n9));
  int64_t n11 = ((int64_t)n10);
  int64_t n12 = ((int64_t)v[4]);
  int64_t n13 = ((int64_t)v[10]);
  int64_t n14 = (((int64_t)n12) - ((int64_t)n13));
  int64_t n15 = ((int64_t)n14);
  int64_t n16 = ((int64_t)v[6]);
  int64_t n17 = ((int64_t)v[9]);
  int64_t n18 = (((int64_t)n16) - ((int64_t)n17));
  int64_t n19 = ((int64_t)n18);
  int64_t n20 = ((int64_t)v[7]);
  int64_t n21 = ((int64_t)v[10]);
  int64_t n22 = (((int64_t)n20) - ((int64_t)n21));
  int64_t n23 = ((int64_t)n22);
  int64_t n24 = ((int64_t)n3);
  int64_t n25 = ((int64_t)n24);
  int64_t n26 = ((int64_t)n25);
  int64_t n27 = ((int64_t)n25);
  int64_t n28 = (((int64_t)n26) * ((int64_t)n27));
  int64_t n29 = ((int64_t)n7);
  int64_t n30 = ((int64_t)n29);
  int64_t n31 = ((int64_t)n30);
  int64_t n32 = ((int64_t)n30);
  int64_t n33 = (((int64_t)n31) * ((int64_t)n32));
  int64_t n34 = (((int64_t)n28) + ((int64_t)n33));
  int64_t n35 = ((int64_t)v[2]);
  int64_t n36 = ((int64_t)v[11]);
  int64_t n37 = (((int64_t)n35) - ((int64_t)n36));
  int64_t n38 = (((int64_t)n34) - ((int64_t)n37));
  int64_t n39 = ((int64_t)n38);
  int64_t n40 = ((int64_t)n11);
  int64_t n41 = ((int64_t)n40);
  int64_t n42 = ((int64_t)n41);
  int64_t n43 = ((int64_t)n41);
  int64_t n44 = (((int64_t)n42) * ((int64_t)n43));
  int64_t n45 = ((int64_t)n15);
  int64_t n46 = ((int64_t)n45);
  int64_t n47 = ((int64_t)n46);
  int64_t n48 = ((int64_t)n46);
  int64_t n49 = (((int64_t)n47) * ((int64_t)n48));
  int64_t n50 = (((int64_t)n44) + ((int64_t)n49));
  int64_t n51 = ((int64_t)v[5]);
  int64_t n52 = ((int64_t)v[11]);
  int64_t n53 = (((int64_t)n51) - ((int64_t)n52));
  int64_t n54 = (((int64_t)n50) - ((int64_t)n53));
  int64_t n55 = ((int64_t)n54);
  int64_t n56 = ((int64_t)n19);
  int64_t n57 = ((int64_t)n56);
  int64_t n58 = ((int64_t)n57);
  int64_t n59 = ((int64_t)n57);
  int64_t n60 = (((int64_t)n58) * ((int64_t)n59));
  int64_t n61 = ((int64_t)n23);
  int64_t n62 = ((int64_t)n61);
  int64_t n63 = ((int64_t)n62);
  int64_t n64 = ((int64_t)n62);
  int64_t n65 = (((int64_t)n63) * ((int64_t)n64));
  int64_t n66 = (((int64_t)n60) + ((int64_t)n65));
  int64_t n67 = ((int64_t)v[8]);
  int64_t n68 = ((int64_t)v[11]);
  int64_t n69 = (((int64_t)n67) - ((int64_t)n68));
  int64_t n70 = (((int64_t)n66) - ((int64_t)n69));
  int64_t n71 = ((int64_t)n70);
  int64_t n72 = ((int64_t)n3);
  int64_t n73 = ((int64_t)n15);
  int64_t n74 = ((int64_t)n71);
  __int128 n75 = (((__int128)n73) * ((__int128)n74));
  int64_t n76 = ((int64_t)n55);
  int64_t n77 = ((int64_t)n23);
  __int128 n78 = (((__int128)n76) * ((__int128)n77));
  __int128 n79 = (((__int128)n75) - ((__int128)n78));
  __int128 n80 = (((__int128)n72) * ((__int128)n79));
  int64_t n81 = ((int64_t)n7);
  int64_t n82 = ((int64_t)n11);
  int64_t n83 = ((int64_t)n71);
  __int128 n84 = (((__int128)n82) * ((__int128)n83));
  int64_t n85 = ((int64_t)n55);
  int64_t n86 = ((int64_t)n19);
  __int128 n87 = (((__int128)n85) * ((__int128)n86));
  __int128 n88 = (((__int128)n84) - ((__int128)n87));
  __int128 n89 = (((__int128)n81) * ((__int128)n88));
  __int128 n90 = (((__int128)n80) - ((__int128)n89));
  int64_t n91 = ((int64_t)n39);
  int64_t n92 = ((int64_t)n11);
  int64_t n93 = ((int64_t)n23);
  int64_t n94 = (((int64_t)n92) * ((int64_t)n93));
  int64_t n95 = ((int64_t)n15);
  int64_t n96 = ((int64_t)n19);
  int64_t n97 = (((int64_t)n95) * ((int64_t)n96));
  int64_t n98 = (((int64_t)n94) - ((int64_t)n97));
  __int128 n99 = (((__int128)n91) * ((__int128)n98));
  __int128 n100 = (((__int128)n90) + ((__int128)n99));
  return (((int)(((__int128)n100) > ((__int128)0))) - ((int)(((__int128)n100) < ((__int128)0))));
}

static int lb1_power2(const int64_t *v) {
  int64_t n0 = ((int64_t)v[3]);
  int64_t n1 = ((int64_t)v[7]);
  int64_t n2 = (-((int64_t)n1));
  int64_t n3 = ((int64_t)v[10]);
  int64_t n4 = (((int64_t)n2) + ((int64_t)n3));
  int64_t n5 = (((int64_t)n0) * ((int64_t)n4));
  int64_t n6 = ((int64_t)v[4]);
  int64_t n7 = ((int64_t)v[6]);
  int64_t n8 = ((int64_t)v[9]);
  int64_t n9 = (-((int64_t)n8));
  int64_t n10 = (((int64_t)n7) + ((int64_t)n9));
  int64_t n11 = (((int64_t)n6) * ((int64_t)n10));
  int64_t n12 = ((int64_t)v[6]);
  int64_t n13 = ((int64_t)v[10]);
  int64_t n14 = (-((int64_t)n13));
  int64_t n15 = (((int64_t)n12) * ((int64_t)n14));
  int64_t n16 = ((int64_t)v[7]);
  int64_t n17 = ((int64_t)v[9]);
  int64_t n18 = (((int64_t)n16) * ((int64_t)n17));
  int64_t n19 = (((int64_t)n15) + ((int64_t)n18));
  int64_t n20 = (((int64_t)n11) + ((int64_t)n19));
  int64_t n21 = (((int64_t)n5) + ((int64_t)n20));
  return (((int)(((int64_t)n21) > ((int64_t)0))) - ((int)(((int64_t)n21) < ((int64_t)0))));
}

static int lb2_power2(const int64_t *v) {
  int64_t n0 = ((int64_t)v[1]);
  int64_t n1 = ((int64_t)v[3]);
  int64_t n2 = ((int64_t)v[7]);
  int64_t n3 = ((int64_t)((int64_t)2));
  int64_t n4 = (((int64_t)n2) * ((int64_t)n3));
  int64_t n5 = ((int64_t)v[10]);
  int64_t n6 = ((int64_t)(-((int64_t)2)));
  int64_t n7 = (((int64_t)n5) * ((int64_t)n6));
  int64_t n8 = (((int64_t)n4) + ((int64_t)n7));
  int64_t n9 = (((int64_t)n1) * ((int64_t)n8));
  int64_t n10 = ((int64_t)v[4]);
  int64_t n11 = ((int64_t)v[6]);
  int64_t n12 = ((int64_t)(-((int64_t)2)));
  int64_t n13 = (((int64_t)n11) * ((int64_t)n12));
  int64_t n14 = ((int64_t)v[9]);
  int64_t n15 = ((int64_t)((int64_t)2));
  int64_t n16 = (((int64_t)n14) * ((int64_t)n15));
  int64_t n17 = (((int64_t)n13) + ((int64_t)n16));
  int64_t n18 = (((int64_t)n10) * ((int64_t)n17));
  int64_t n19 = ((int64_t)v[6]);
  int64_t n20 = ((int64_t)v[10]);
  int64_t n21 = ((int64_t)((int64_t)2));
  int64_t n22 = (((int64_t)n20) * ((int64_t)n21));
  int64_t n23 = (((int64_t)n19) * ((int64_t)n22));
  int64_t n24 = ((int64_t)v[7]);
  int64_t n25 = ((int64_t)v[9]);
  int64_t n26 = ((int64_t)(-((int64_t)2)));
  int64_t n27 = (((int64_t)n25) * ((int64_t)n26));
  int64_t n28 = (((int64_t)n24) * ((int64_t)n27));
  int64_t n29 = (((int64_t)n23) + ((int64_t)n28));
  int64_t n30 = (((int64_t)n18) + ((int64_t)n29));
  int64_t n31 = (((int64_t)n9) + ((int64_t)n30));
  __int128 n32 = (((__int128)n0) * ((__int128)n31));
  int64_t n33 = ((int64_t)v[3]);
  int64_t n34 = ((int64_t)v[3]);
  int64_t n35 = ((int64_t)v[6]);
  int64_t n36 = ((int64_t)v[9]);
  int64_t n37 = (-((int64_t)n36));
  int64_t n38 = ((int64_t)n37);
  int64_t n39 = ((int64_t)n38);
  int64_t n40 = (((int64_t)n35) + ((int64_t)n39));
  int64_t n41 = ((int64_t)n40);
  int64_t n42 = ((int64_t)n41);
  int64_t n43 = (((int64_t)n34) * ((int64_t)n42));
  int64_t n44 = ((int64_t)v[6]);
  int64_t n45 = ((int64_t)v[6]);
  int64_t n46 = (-((int64_t)n45));
  int64_t n47 = ((int64_t)n46);
  int64_t n48 = ((int64_t)n47);
  int64_t n49 = (((int64_t)n44) * ((int64_t)n48));
  int64_t n50 = ((int64_t)v[7]);
  int64_t n51 = ((int64_t)v[7]);
  int64_t n52 = (-((int64_t)n51));
  int64_t n53 = (((int64_t)n50) * ((int64_t)n52));
  int64_t n54 = ((int64_t)v[8]);
  int64_t n55 = ((int64_t)v[9]);
  int64_t n56 = ((int64_t)v[9]);
  int64_t n57 = (((int64_t)n55) * ((int64_t)n56));
  int64_t n58 = ((int64_t)v[10]);
  int64_t n59 = ((int64_t)v[10]);
  int64_t n60 = (((int64_t)n58) * ((int64_t)n59));
  int64_t n61 = ((int64_t)v[11]);
  int64_t n62 = (-((int64_t)n61));
  int64_t n63 = (((int64_t)n60) + ((int64_t)n62));
  int64_t n64 = (((int64_t)n57) + ((int64_t)n63));
  int64_t n65 = (((int64_t)n54) + ((int64_t)n64));
  int64_t n66 = (((int64_t)n53) + ((int64_t)n65));
  int64_t n67 = (((int64_t)n49) + ((int64_t)n66));
  int64_t n68 = (((int64_t)n43) + ((int64_t)n67));
  __int128 n69 = (((__int128)n33) * ((__int128)n68));
  int64_t n70 = ((int64_t)v[4]);
  int64_t n71 = ((int64_t)v[4]);
  int64_t n72 = ((int64_t)n41);
  int64_t n73 = (((int64_t)n71) * ((int64_t)n72));
  __int128 n74 = (((__int128)n70) * ((__int128)n73));
  int64_t n75 = ((int64_t)v[5]);
  int64_t n76 = ((int64_t)n47);
  int64_t n77 = ((int64_t)v[9]);
  int64_t n78 = (((int64_t)n76) + ((int64_t)n77));
  __int128 n79 = (((__int128)n75) * ((__int128)n78));
  int64_t n80 = ((int64_t)v[6]);
  int64_t n81 = ((int64_t)v[6]);
  int64_t n82 = ((int64_t)v[9]);
  int64_t n83 = (((int64_t)n81) * ((int64_t)n82));
  int64_t n84 = ((int64_t)v[9]);
  int64_t n85 = ((int64_t)n38);
  int64_t n86 = (((int64_t)n84) * ((int64_t)n85));
  int64_t n87 = ((int64_t)v[10]);
  int64_t n88 = ((int64_t)v[10]);
  int64_t n89 = (-((int64_t)n88));
  int64_t n90 = (((int64_t)n87) * ((int64_t)n89));
  int64_t n91 = ((int64_t)v[11]);
  int64_t n92 = (((int64_t)n90) + ((int64_t)n91));
  int64_t n93 = (((int64_t)n86) + ((int64_t)n92));
  int64_t n94 = (((int64_t)n83) + ((int64_t)n93));
  __int128 n95 = (((__int128)n80) * ((__int128)n94));
  int64_t n96 = ((int64_t)v[7]);
  int64_t n97 = ((int64_t)v[7]);
  int64_t n98 = ((int64_t)v[9]);
  int64_t n99 = (((int64_t)n97) * ((int64_t)n98));
  __int128 n100 = (((__int128)n96) * ((__int128)n99));
  int64_t n101 = ((int64_t)v[8]);
  int64_t n102 = ((int64_t)n38);
  __int128 n103 = (((__int128)n101) * ((__int128)n102));
  __int128 n104 = (((__int128)n100) + ((__int128)n103));
  __int128 n105 = (((__int128)n95) + ((__int128)n104));
  __int128 n106 = (((__int128)n79) + ((__int128)n105));
  __int128 n107 = (((__int128)n74) + ((__int128)n106));
  __int128 n108 = (((__int128)n69) + ((__int128)n107));
  __int128 n109 = (((__int128)n32) + ((__int128)n108));
  return (((int)(((__int128)n109) > ((__int128)0))) - ((int)(((__int128)n109) < ((__int128)0))));
}

static int lb3_power2(const int64_t *v) {
  int64_t n0 = ((int64_t)v[3]);
  int64_t n1 = ((int64_t)v[7]);
  int64_t n2 = ((int64_t)v[10]);
  int64_t n3 = (-((int64_t)n2));
  int64_t n4 = (((int64_t)n1) + ((int64_t)n3));
  int64_t n5 = (((int64_t)n0) * ((int64_t)n4));
  int64_t n6 = ((int64_t)v[4]);
  int64_t n7 = ((int64_t)v[6]);
  int64_t n8 = (-((int64_t)n7));
  int64_t n9 = ((int64_t)v[9]);
  int64_t n10 = (((int64_t)n8) + ((int64_t)n9));
  int64_t n11 = (((int64_t)n6) * ((int64_t)n10));
  int64_t n12 = ((int64_t)v[6]);
  int64_t n13 = ((int64_t)v[10]);
  int64_t n14 = (((int64_t)n12) * ((int64_t)n13));
  int64_t n15 = ((int64_t)v[7]);
  int64_t n16 = ((int64_t)v[9]);
  int64_t n17 = (-((int64_t)n16));
  int64_t n18 = (((int64_t)n15) * ((int64_t)n17));
  int64_t n19 = (((int64_t)n14) + ((int64_t)n18));
  int64_t n20 = (((int64_t)n11) + ((int64_t)n19));
  int64_t n21 = (((int64_t)n5) + ((int64_t)n20));
  return (((int)(((int64_t)n21) > ((int64_t)0))) - ((int)(((int64_t)n21) < ((int64_t)0))));
}

static int lb4_power2(const int64_t *v) {
  int64_t n0 = ((int64_t)v[0]);
  int64_t n1 = ((int64_t)v[3]);
  int64_t n2 = ((int64_t)v[7]);
  int64_t n3 = ((int64_t)((int64_t)2));
  int64_t n4 = (((int64_t)n2) * ((int64_t)n3));
  int64_t n5 = ((int64_t)v[10]);
  int64_t n6 = ((int64_t)(-((int64_t)2)));
  int64_t n7 = (((int64_t)n5) * ((int64_t)n6));
  int64_t n8 = (((int64_t)n4) + ((int64_t)n7));
  int64_t n9 = (((int64_t)n1) * ((int64_t)n8));
  int64_t n10 = ((int64_t)v[4]);
  int64_t n11 = ((int64_t)v[6]);
  int64_t n12 = ((int64_t)(-((int64_t)2)));
  int64_t n13 = (((int64_t)n11) * ((int64_t)n12));
  int64_t n14 = ((int64_t)v[9]);
  int64_t n15 = ((int64_t)((int64_t)2));
  int64_t n16 = (((int64_t)n14) * ((int64_t)n15));
  int64_t n17 = (((int64_t)n13) + ((int64_t)n16));
  int64_t n18 = (((int64_t)n10) * ((int64_t)n17));
  int64_t n19 = ((int64_t)v[6]);
  int64_t n20 = ((int64_t)v[10]);
  int64_t n21 = ((int64_t)((int64_t)2));
  int64_t n22 = (((int64_t)n20) * ((int64_t)n21));
  int64_t n23 = (((int64_t)n19) * ((int64_t)n22));
  int64_t n24 = ((int64_t)v[7]);
  int64_t n25 = ((int64_t)v[9]);
  int64_t n26 = ((int64_t)(-((int64_t)2)));
  int64_t n27 = (((int64_t)n25) * ((int64_t)n26));
  int64_t n28 = (((int64_t)n24) * ((int64_t)n27));
  int64_t n29 = (((int64_t)n23) + ((int64_t)n28));
  int64_t n30 = (((int64_t)n18) + ((int64_t)n29));
  int64_t n31 = (((int64_t)n9) + ((int64_t)n30));
  __int128 n32 = (((__int128)n0) * ((__int128)n31));
  int64_t n33 = ((int64_t)v[3]);
  int64_t n34 = ((int64_t)v[3]);
  int64_t n35 = ((int64_t)v[7]);
  int64_t n36 = (-((int64_t)n35));
  int64_t n37 = ((int64_t)v[10]);
  int64_t n38 = (((int64_t)n36) + ((int64_t)n37));
  int64_t n39 = ((int64_t)n38);
  int64_t n40 = ((int64_t)n39);
  int64_t n41 = (((int64_t)n34) * ((int64_t)n40));
  __int128 n42 = (((__int128)n33) * ((__int128)n41));
  int64_t n43 = ((int64_t)v[4]);
  int64_t n44 = ((int64_t)v[4]);
  int64_t n45 = ((int64_t)n39);
  int64_t n46 = (((int64_t)n44) * ((int64_t)n45));
  int64_t n47 = ((int64_t)v[6]);
  int64_t n48 = ((int64_t)v[6]);
  int64_t n49 = (((int64_t)n47) * ((int64_t)n48));
  int64_t n50 = ((int64_t)v[7]);
  int64_t n51 = ((int64_t)v[7]);
  int64_t n52 = (((int64_t)n50) * ((int64_t)n51));
  int64_t n53 = ((int64_t)v[8]);
  int64_t n54 = (-((int64_t)n53));
  int64_t n55 = ((int64_t)v[9]);
  int64_t n56 = ((int64_t)v[9]);
  int64_t n57 = (-((int64_t)n56));
  int64_t n58 = (((int64_t)n55) * ((int64_t)n57));
  int64_t n59 = ((int64_t)v[10]);
  int64_t n60 = ((int64_t)v[10]);
  int64_t n61 = (-((int64_t)n60));
  int64_t n62 = ((int64_t)n61);
  int64_t n63 = ((int64_t)n62);
  int64_t n64 = (((int64_t)n59) * ((int64_t)n63));
  int64_t n65 = ((int64_t)v[11]);
  int64_t n66 = (((int64_t)n64) + ((int64_t)n65));
  int64_t n67 = (((int64_t)n58) + ((int64_t)n66));
  int64_t n68 = (((int64_t)n54) + ((int64_t)n67));
  int64_t n69 = (((int64_t)n52) + ((int64_t)n68));
  int64_t n70 = (((int64_t)n49) + ((int64_t)n69));
  int64_t n71 = (((int64_t)n46) + ((int64_t)n70));
  __int128 n72 = (((__int128)n43) * ((__int128)n71));
  int64_t n73 = ((int64_t)v[5]);
  int64_t n74 = ((int64_t)v[7]);
  int64_t n75 = ((int64_t)n62);
  int64_t n76 = (((int64_t)n74) + ((int64_t)n75));
  __int128 n77 = (((__int128)n73) * ((__int128)n76));
  int64_t n78 = ((int64_t)v[6]);
  int64_t n79 = ((int64_t)v[6]);
  int64_t n80 = ((int64_t)n62);
  int64_t n81 = (((int64_t)n79) * ((int64_t)n80));
  __int128 n82 = (((__int128)n78) * ((__int128)n81));
  int64_t n83 = ((int64_t)v[7]);
  int64_t n84 = ((int64_t)v[7]);
  int64_t n85 = ((int64_t)n62);
  int64_t n86 = (((int64_t)n84) * ((int64_t)n85));
  int64_t n87 = ((int64_t)v[9]);
  int64_t n88 = ((int64_t)v[9]);
  int64_t n89 = (((int64_t)n87) * ((int64_t)n88));
  int64_t n90 = ((int64_t)v[10]);
  int64_t n91 = ((int64_t)v[10]);
  int64_t n92 = (((int64_t)n90) * ((int64_t)n91));
  int64_t n93 = ((int64_t)v[11]);
  int64_t n94 = (-((int64_t)n93));
  int64_t n95 = (((int64_t)n92) + ((int64_t)n94));
  int64_t n96 = (((int64_t)n89) + ((int64_t)n95));
  int64_t n97 = (((int64_t)n86) + ((int64_t)n96));
  __int128 n98 = (((__int128)n83) * ((__int128)n97));
  int64_t n99 = ((int64_t)v[8]);
  int64_t n100 = ((int64_t)v[10]);
  __int128 n101 = (((__int128)n99) * ((__int128)n100));
  __int128 n102 = (((__int128)n98) + ((__int128)n101));
  __int128 n103 = (((__int128)n82) + ((__int128)n102));
  __int128 n104 = (((__int128)n77) + ((__int128)n103));
  __int128 n105 = (((__int128)n72) + ((__int128)n104));
  __int128 n106 = (((__int128)n42) + ((__int128)n105));
  __int128 n107 = (((__int128)n32) + ((__int128)n106));
  return (((int)(((__int128)n107) > ((__int128)0))) - ((int)(((__int128)n107) < ((__int128)0))));
}

static int lb5_power2(const int64_t *v) {
  int64_t n0 = ((int64_t)v[3]);
  int64_t n1 = ((int64_t)v[7]);
  int64_t n2 = ((int64_t)v[10]);
  int64_t n3 = (-((int64_t)n2));
  int64_t n4 = (((int64_t)n1) + ((int64_t)n3));
  int64_t n5 = (((int64_t)n0) * ((int64_t)n4));
  int64_t n6 = ((int64_t)v[4]);
  int64_t n7 = ((int64_t)v[6]);
  int64_t n8 = (-((int64_t)n7));
  int64_t n9 = ((int64_t)v[9]);
  int64_t n10 = (((int64_t)n8) + ((int64_t)n9));
  int64_t n11 = (((int64_t)n6) * ((int64_t)n10));
  int64_t n12 = ((int64_t)v[6]);
  int64_t n13 = ((int64_t)v[10]);
  int64_t n14 = (((int64_t)n12) * ((int64_t)n13));
  int64_t n15 = ((int64_t)v[7]);
  int64_t n16 = ((int64_t)v[9]);
  int64_t n17 = (-((int64_t)n16));
  int64_t n18 = (((int64_t)n15) * ((int64_t)n17));
  int64_t n19 = (((int64_t)n14) + ((int64_t)n18));
  int64_t n20 = (((int64_t)n11) + ((int64_t)n19));
  int64_t n21 = (((int64_t)n5) + ((int64_t)n20));
  return (((int)(((int64_t)n21) > ((int64_t)0))) - ((int)(((int64_t)n21) < ((int64_t)0))));
}

static int lb6_power2(const int64_t *v) {
  int64_t n0 = ((int64_t)v[0]);
  int64_t n1 = ((int64_t)v[7]);
  int64_t n2 = ((int64_t)v[10]);
  int64_t n3 = (-((int64_t)n2));
  int64_t n4 = (((int64_t)n1) + ((int64_t)n3));
  int64_t n5 = (((int64_t)n0) * ((int64_t)n4));
  int64_t n6 = ((int64_t)v[1]);
  int64_t n7 = ((int64_t)v[6]);
  int64_t n8 = (-((int64_t)n7));
  int64_t n9 = ((int64_t)v[9]);
  int64_t n10 = (((int64_t)n8) + ((int64_t)n9));
  int64_t n11 = (((int64_t)n6) * ((int64_t)n10));
  int64_t n12 = ((int64_t)v[6]);
  int64_t n13 = ((int64_t)v[10]);
  int64_t n14 = (((int64_t)n12) * ((int64_t)n13));
  int64_t n15 = ((int64_t)v[7]);
  int64_t n16 = ((int64_t)v[9]);
  int64_t n17 = (-((int64_t)n16));
  int64_t n18 = (((int64_t)n15) * ((int64_t)n17));
  int64_t n19 = (((int64_t)n14) + ((int64_t)n18));
  int64_t n20 = (((int64_t)n11) + ((int64_t)n19));
  int64_t n21 = (((int64_t)n5) + ((int64_t)n20));
  return (((int)(((int64_t)n21) > ((int64_t)0))) - ((int)(((int64_t)n21) < ((int64_t)0))));
}

static int lb7_power2(const int64_t *v) {
  int64_t n0 = ((int64_t)v[6]);
  int64_t n1 = (-((int64_t)n0));
  int64_t n2 = ((int64_t)v[9]);
  int64_t n3 = (((int64_t)n1) + ((int64_t)n2));
  return (((int)(((int64_t)n3) > ((int64_t)0))) - ((int)(((int64_t)n3) < ((int64_t)0))));
}

static int lb8_power2(const int64_t *v) {
  int64_t n0 = ((int64_t)v[7]);
  int64_t n1 = ((int64_t)v[10]);
  int64_t n2 = (-((int64_t)n1));
  int64_t n3 = (((int64_t)n0) + ((int64_t)n2));
  return (((int)(((int64_t)n3) > ((int64_t)0))) - ((int)(((int64_t)n3) < ((int64_t)0))));
}

static int lb9_power2(const int64_t *v) {
  int64_t n0 = ((int64_t)v[0]);
  int64_t n1 = ((int64_t)v[0]);
  int64_t n2 = ((int64_t)v[6]);
  int64_t n3 = (-((int64_t)n2));
  int64_t n4 = ((int64_t)v[9]);
  int64_t n5 = (((int64_t)n3) + ((int64_t)n4));
  int64_t n6 = ((int64_t)n5);
  int64_t n7 = ((int64_t)n6);
  int64_t n8 = (((int64_t)n1) * ((int64_t)n7));
  int64_t n9 = ((int64_t)v[4]);
  int64_t n10 = ((int64_t)v[7]);
  int64_t n11 = ((int64_t)(-((int64_t)2)));
  int64_t n12 = (((int64_t)n10) * ((int64_t)n11));
  int64_t n13 = ((int64_t)v[10]);
  int64_t n14 = ((int64_t)((int64_t)2));
  int64_t n15 = (((int64_t)n13) * ((int64_t)n14));
  int64_t n16 = (((int64_t)n12) + ((int64_t)n15));
  int64_t n17 = (((int64_t)n9) * ((int64_t)n16));
  int64_t n18 = ((int64_t)v[6]);
  int64_t n19 = ((int64_t)v[6]);
  int64_t n20 = (((int64_t)n18) * ((int64_t)n19));
  int64_t n21 = ((int64_t)v[7]);
  int64_t n22 = ((int64_t)v[7]);
  int64_t n23 = (((int64_t)n21) * ((int64_t)n22));
  int64_t n24 = ((int64_t)v[8]);
  int64_t n25 = (-((int64_t)n24));
  int64_t n26 = ((int64_t)v[9]);
  int64_t n27 = ((int64_t)v[9]);
  int64_t n28 = (-((int64_t)n27));
  int64_t n29 = ((int64_t)n28);
  int64_t n30 = ((int64_t)n29);
  int64_t n31 = (((int64_t)n26) * ((int64_t)n30));
  int64_t n32 = ((int64_t)v[10]);
  int64_t n33 = ((int64_t)v[10]);
  int64_t n34 = (-((int64_t)n33));
  int64_t n35 = (((int64_t)n32) * ((int64_t)n34));
  int64_t n36 = ((int64_t)v[11]);
  int64_t n37 = (((int64_t)n35) + ((int64_t)n36));
  int64_t n38 = (((int64_t)n31) + ((int64_t)n37));
  int64_t n39 = (((int64_t)n25) + ((int64_t)n38));
  int64_t n40 = (((int64_t)n23) + ((int64_t)n39));
  int64_t n41 = (((int64_t)n20) + ((int64_t)n40));
  int64_t n42 = (((int64_t)n17) + ((int64_t)n41));
  int64_t n43 = (((int64_t)n8) + ((int64_t)n42));
  __int128 n44 = (((__int128)n0) * ((__int128)n43));
  int64_t n45 = ((int64_t)v[1]);
  int64_t n46 = ((int64_t)v[1]);
  int64_t n47 = ((int64_t)n6);
  int64_t n48 = (((int64_t)n46) * ((int64_t)n47));
  int64_t n49 = ((int64_t)v[4]);
  int64_t n50 = ((int64_t)v[6]);
  int64_t n51 = ((int64_t)((int64_t)2));
  int64_t n52 = (((int64_t)n50) * ((int64_t)n51));
  int64_t n53 = ((int64_t)v[9]);
  int64_t n54 = ((int64_t)(-((int64_t)2)));
  int64_t n55 = (((int64_t)n53) * ((int64_t)n54));
  int64_t n56 = (((int64_t)n52) + ((int64_t)n55));
  int64_t n57 = (((int64_t)n49) * ((int64_t)n56));
  int64_t n58 = (((int64_t)n48) + ((int64_t)n57));
  __int128 n59 = (((__int128)n45) * ((__int128)n58));
  int64_t n60 = ((int64_t)v[2]);
  int64_t n61 = ((int64_t)v[6]);
  int64_t n62 = ((int64_t)n29);
  int64_t n63 = (((int64_t)n61) + ((int64_t)n62));
  __int128 n64 = (((__int128)n60) * ((__int128)n63));
  int64_t n65 = ((int64_t)v[4]);
  int64_t n66 = ((int64_t)v[6]);
  int64_t n67 = ((int64_t)v[10]);
  int64_t n68 = ((int64_t)(-((int64_t)2)));
  int64_t n69 = (((int64_t)n67) * ((int64_t)n68));
  int64_t n70 = (((int64_t)n66) * ((int64_t)n69));
  int64_t n71 = ((int64_t)v[7]);
  int64_t n72 = ((int64_t)v[9]);
  int64_t n73 = ((int64_t)((int64_t)2));
  int64_t n74 = (((int64_t)n72) * ((int64_t)n73));
  int64_t n75 = (((int64_t)n71) * ((int64_t)n74));
  int64_t n76 = (((int64_t)n70) + ((int64_t)n75));
  __int128 n77 = (((__int128)n65) * ((__int128)n76));
  int64_t n78 = ((int64_t)v[6]);
  int64_t n79 = ((int64_t)v[6]);
  int64_t n80 = ((int64_t)n29);
  int64_t n81 = (((int64_t)n79) * ((int64_t)n80));
  int64_t n82 = ((int64_t)v[9]);
  int64_t n83 = ((int64_t)v[9]);
  int64_t n84 = (((int64_t)n82) * ((int64_t)n83));
  int64_t n85 = ((int64_t)v[10]);
  int64_t n86 = ((int64_t)v[10]);
  int64_t n87 = (((int64_t)n85) * ((int64_t)n86));
  int64_t n88 = ((int64_t)v[11]);
  int64_t n89 = (-((int64_t)n88));
  int64_t n90 = (((int64_t)n87) + ((int64_t)n89));
  int64_t n91 = (((int64_t)n84) + ((int64_t)n90));
  int64_t n92 = (((int64_t)n81) + ((int64_t)n91));
  __int128 n93 = (((__int128)n78) * ((__int128)n92));
  int64_t n94 = ((int64_t)v[7]);
  int64_t n95 = ((int64_t)v[7]);
  int64_t n96 = ((int64_t)n29);
  int64_t n97 = (((int64_t)n95) * ((int64_t)n96));
  __int128 n98 = (((__int128)n94) * ((__int128)n97));
  int64_t n99 = ((int64_t)v[8]);
  int64_t n100 = ((int64_t)v[9]);
  __int128 n101 = (((__int128)n99) * ((__int128)n100));
  __int128 n102 = (((__int128)n98) + ((__int128)n101));
  __int128 n103 = (((__int128)n93) + ((__int128)n102));
  __int128 n104 = (((__int128)n77) + ((__int128)n103));
  __int128 n105 = (((__int128)n64) + ((__int128)n104));
  __int128 n106 = (((__int128)n59) + ((__int128)n105));
  __int128 n107 = (((__int128)n44) + ((__int128)n106));
  return (((int)(((__int128)n107) > ((__int128)0))) - ((int)(((__int128)n107) < ((__int128)0))));
}

static int lb10_power2(const int64_t *v) {
  int64_t n0 = ((int64_t)v[6]);
  int64_t n1 = ((int64_t)v[9]);
  int64_t n2 = (-((int64_t)n1));
  int64_t n3 = (((int64_t)n0) + ((int64_t)n2));
  return (((int)(((int64_t)n3) > ((int64_t)0))) - ((int)(((int64_t)n3) < ((int64_t)0))));
}

static int lb11_power2(const int64_t *v) {
  int64_t n0 = ((int64_t)v[1]);
  int64_t n1 = ((int64_t)v[6]);
  int64_t n2 = ((int64_t)(-((int64_t)2)));
  int64_t n3 = (((int64_t)n1) * ((int64_t)n2));
  int64_t n4 = ((int64_t)v[9]);
  int64_t n5 = ((int64_t)((int64_t)2));
  int64_t n6 = (((int64_t)n4) * ((int64_t)n5));
  int64_t n7 = (((int64_t)n3) + ((int64_t)n6));
  int64_t n8 = (((int64_t)n0) * ((int64_t)n7));
  int64_t n9 = ((int64_t)v[4]);
  int64_t n10 = ((int64_t)v[6]);
  int64_t n11 = ((int64_t)((int64_t)2));
  int64_t n12 = (((int64_t)n10) * ((int64_t)n11));
  int64_t n13 = ((int64_t)v[9]);
  int64_t n14 = ((int64_t)(-((int64_t)2)));
  int64_t n15 = (((int64_t)n13) * ((int64_t)n14));
  int64_t n16 = (((int64_t)n12) + ((int64_t)n15));
  int64_t n17 = (((int64_t)n9) * ((int64_t)n16));
  int64_t n18 = (((int64_t)n8) + ((int64_t)n17));
  return (((int)(((int64_t)n18) > ((int64_t)0))) - ((int)(((int64_t)n18) < ((int64_t)0))));
}

static int lb12_power2(const int64_t *v) {
  int64_t n0 = ((int64_t)v[6]);
  int64_t n1 = (-((int64_t)n0));
  int64_t n2 = ((int64_t)v[9]);
  int64_t n3 = (((int64_t)n1) + ((int64_t)n2));
  return (((int)(((int64_t)n3) > ((int64_t)0))) - ((int)(((int64_t)n3) < ((int64_t)0))));
}

static int lb13_power2(const int64_t *v) {
  int64_t n0 = ((int64_t)v[0]);
  int64_t n1 = ((int64_t)v[6]);
  int64_t n2 = ((int64_t)(-((int64_t)2)));
  int64_t n3 = (((int64_t)n1) * ((int64_t)n2));
  int64_t n4 = ((int64_t)v[9]);
  int64_t n5 = ((int64_t)((int64_t)2));
  int64_t n6 = (((int64_t)n4) * ((int64_t)n5));
  int64_t n7 = (((int64_t)n3) + ((int64_t)n6));
  int64_t n8 = (((int64_t)n0) * ((int64_t)n7));
  int64_t n9 = ((int64_t)v[4]);
  int64_t n10 = ((int64_t)v[7]);
  int64_t n11 = ((int64_t)(-((int64_t)2)));
  int64_t n12 = (((int64_t)n10) * ((int64_t)n11));
  int64_t n13 = ((int64_t)v[10]);
  int64_t n14 = ((int64_t)((int64_t)2));
  int64_t n15 = (((int64_t)n13) * ((int64_t)n14));
  int64_t n16 = (((int64_t)n12) + ((int64_t)n15));
  int64_t n17 = (((int64_t)n9) * ((int64_t)n16));
  int64_t n18 = ((int64_t)v[6]);
  int64_t n19 = ((int64_t)v[6]);
  int64_t n20 = (((int64_t)n18) * ((int64_t)n19));
  int64_t n21 = ((int64_t)v[7]);
  int64_t n22 = ((int64_t)v[7]);
  int64_t n23 = (((int64_t)n21) * ((int64_t)n22));
  int64_t n24 = ((int64_t)v[8]);
  int64_t n25 = (-((int64_t)n24));
  int64_t n26 = ((int64_t)v[9]);
  int64_t n27 = ((int64_t)v[9]);
  int64_t n28 = (-((int64_t)n27));
  int64_t n29 = (((int64_t)n26) * ((int64_t)n28));
  int64_t n30 = ((int64_t)v[10]);
  int64_t n31 = ((int64_t)v[10]);
  int64_t n32 = (-((int64_t)n31));
  int64_t n33 = (((int64_t)n30) * ((int64_t)n32));
  int64_t n34 = ((int64_t)v[11]);
  int64_t n35 = (((int64_t)n33) + ((int64_t)n34));
  int64_t n36 = (((int64_t)n29) + ((int64_t)n35));
  int64_t n37 = (((int64_t)n25) + ((int64_t)n36));
  int64_t n38 = (((int64_t)n23) + ((int64_t)n37));
  int64_t n39 = (((int64_t)n20) + ((int64_t)n38));
  int64_t n40 = (((int64_t)n17) + ((int64_t)n39));
  int64_t n41 = (((int64_t)n8) + ((int64_t)n40));
  return (((int)(((int64_t)n41) > ((int64_t)0))) - ((int)(((int64_t)n41) < ((int64_t)0))));
}

static int lb14_power2(const int64_t *v) {
  int64_t n0 = ((int64_t)v[6]);
  int64_t n1 = (-((int64_t)n0));
  int64_t n2 = ((int64_t)v[9]);
  int64_t n3 = (((int64_t)n1) + ((int64_t)n2));
  return (((int)(((int64_t)n3) > ((int64_t)0))) - ((int)(((int64_t)n3) < ((int64_t)0))));
}

static int lb15_power2(const int64_t *v) {
  int64_t n0 = ((int64_t)v[0]);
  int64_t n1 = ((int64_t)v[7]);
  int64_t n2 = (-((int64_t)n1));
  int64_t n3 = ((int64_t)v[10]);
  int64_t n4 = (((int64_t)n2) + ((int64_t)n3));
  int64_t n5 = (((int64_t)n0) * ((int64_t)n4));
  int64_t n6 = ((int64_t)v[1]);
  int64_t n7 = ((int64_t)v[6]);
  int64_t n8 = ((int64_t)v[9]);
  int64_t n9 = (-((int64_t)n8));
  int64_t n10 = (((int64_t)n7) + ((int64_t)n9));
  int64_t n11 = (((int64_t)n6) * ((int64_t)n10));
  int64_t n12 = ((int64_t)v[6]);
  int64_t n13 = ((int64_t)v[10]);
  int64_t n14 = (-((int64_t)n13));
  int64_t n15 = (((int64_t)n12) * ((int64_t)n14));
  int64_t n16 = ((int64_t)v[7]);
  int64_t n17 = ((int64_t)v[9]);
  int64_t n18 = (((int64_t)n16) * ((int64_t)n17));
  int64_t n19 = (((int64_t)n15) + ((int64_t)n18));
  int64_t n20 = (((int64_t)n11) + ((int64_t)n19));
  int64_t n21 = (((int64_t)n5) + ((int64_t)n20));
  return (((int)(((int64_t)n21) > ((int64_t)0))) - ((int)(((int64_t)n21) < ((int64_t)0))));
}

static int lb16_power2(const int64_t *v) {
  int64_t n0 = ((int64_t)v[6]);
  int64_t n1 = ((int64_t)v[9]);
  int64_t n2 = (-((int64_t)n1));
  int64_t n3 = (((int64_t)n0) + ((int64_t)n2));
  return (((int)(((int64_t)n3) > ((int64_t)0))) - ((int)(((int64_t)n3) < ((int64_t)0))));
}

static int lb17_power2(const int64_t *v) {
  int64_t n0 = ((int64_t)v[7]);
  int64_t n1 = (-((int64_t)n0));
  int64_t n2 = ((int64_t)v[10]);
  int64_t n3 = (((int64_t)n1) + ((int64_t)n2));
  return (((int)(((int64_t)n3) > ((int64_t)0))) - ((int)(((int64_t)n3) < ((int64_t)0))));
}

static int lb18_power2(const int64_t *v) {
  int64_t n0 = ((int64_t)v[0]);
  int64_t n1 = ((int64_t)v[0]);
  int64_t n2 = ((int64_t)v[7]);
  int64_t n3 = ((int64_t)v[10]);
  int64_t n4 = (-((int64_t)n3));
  int64_t n5 = ((int64_t)n4);
  int64_t n6 = ((int64_t)n5);
  int64_t n7 = (((int64_t)n2) + ((int64_t)n6));
  int64_t n8 = ((int64_t)n7);
  int64_t n9 = ((int64_t)n8);
  int64_t n10 = (((int64_t)n1) * ((int64_t)n9));
  int64_t n11 = ((int64_t)v[3]);
  int64_t n12 = ((int64_t)v[7]);
  int64_t n13 = ((int64_t)(-((int64_t)2)));
  int64_t n14 = (((int64_t)n12) * ((int64_t)n13));
  int64_t n15 = ((int64_t)v[10]);
  int64_t n16 = ((int64_t)((int64_t)2));
  int64_t n17 = (((int64_t)n15) * ((int64_t)n16));
  int64_t n18 = (((int64_t)n14) + ((int64_t)n17));
  int64_t n19 = (((int64_t)n11) * ((int64_t)n18));
  int64_t n20 = (((int64_t)n10) + ((int64_t)n19));
  __int128 n21 = (((__int128)n0) * ((__int128)n20));
  int64_t n22 = ((int64_t)v[1]);
  int64_t n23 = ((int64_t)v[1]);
  int64_t n24 = ((int64_t)n8);
  int64_t n25 = (((int64_t)n23) * ((int64_t)n24));
  int64_t n26 = ((int64_t)v[3]);
  int64_t n27 = ((int64_t)v[6]);
  int64_t n28 = ((int64_t)((int64_t)2));
  int64_t n29 = (((int64_t)n27) * ((int64_t)n28));
  int64_t n30 = ((int64_t)v[9]);
  int64_t n31 = ((int64_t)(-((int64_t)2)));
  int64_t n32 = (((int64_t)n30) * ((int64_t)n31));
  int64_t n33 = (((int64_t)n29) + ((int64_t)n32));
  int64_t n34 = (((int64_t)n26) * ((int64_t)n33));
  int64_t n35 = ((int64_t)v[6]);
  int64_t n36 = ((int64_t)v[6]);
  int64_t n37 = (-((int64_t)n36));
  int64_t n38 = (((int64_t)n35) * ((int64_t)n37));
  int64_t n39 = ((int64_t)v[7]);
  int64_t n40 = ((int64_t)v[7]);
  int64_t n41 = (-((int64_t)n40));
  int64_t n42 = ((int64_t)n41);
  int64_t n43 = ((int64_t)n42);
  int64_t n44 = (((int64_t)n39) * ((int64_t)n43));
  int64_t n45 = ((int64_t)v[8]);
  int64_t n46 = ((int64_t)v[9]);
  int64_t n47 = ((int64_t)v[9]);
  int64_t n48 = (((int64_t)n46) * ((int64_t)n47));
  int64_t n49 = ((int64_t)v[10]);
  int64_t n50 = ((int64_t)v[10]);
  int64_t n51 = (((int64_t)n49) * ((int64_t)n50));
  int64_t n52 = ((int64_t)v[11]);
  int64_t n53 = (-((int64_t)n52));
  int64_t n54 = (((int64_t)n51) + ((int64_t)n53));
  int64_t n55 = (((int64_t)n48) + ((int64_t)n54));
  int64_t n56 = (((int64_t)n45) + ((int64_t)n55));
  int64_t n57 = (((int64_t)n44) + ((int64_t)n56));
  int64_t n58 = (((int64_t)n38) + ((int64_t)n57));
  int64_t n59 = (((int64_t)n34) + ((int64_t)n58));
  int64_t n60 = (((int64_t)n25) + ((int64_t)n59));
  __int128 n61 = (((__int128)n22) * ((__int128)n60));
  int64_t n62 = ((int64_t)v[2]);
  int64_t n63 = ((int64_t)n42);
  int64_t n64 = ((int64_t)v[10]);
  int64_t n65 = (((int64_t)n63) + ((int64_t)n64));
  __int128 n66 = (((__int128)n62) * ((__int128)n65));
  int64_t n67 = ((int64_t)v[3]);
  int64_t n68 = ((int64_t)v[6]);
  int64_t n69 = ((int64_t)v[10]);
  int64_t n70 = ((int64_t)(-((int64_t)2)));
  int64_t n71 = (((int64_t)n69) * ((int64_t)n70));
  int64_t n72 = (((int64_t)n68) * ((int64_t)n71));
  int64_t n73 = ((int64_t)v[7]);
  int64_t n74 = ((int64_t)v[9]);
  int64_t n75 = ((int64_t)((int64_t)2));
  int64_t n76 = (((int64_t)n74) * ((int64_t)n75));
  int64_t n77 = (((int64_t)n73) * ((int64_t)n76));
  int64_t n78 = (((int64_t)n72) + ((int64_t)n77));
  __int128 n79 = (((__int128)n67) * ((__int128)n78));
  int64_t n80 = ((int64_t)v[6]);
  int64_t n81 = ((int64_t)v[6]);
  int64_t n82 = ((int64_t)v[10]);
  int64_t n83 = (((int64_t)n81) * ((int64_t)n82));
  __int128 n84 = (((__int128)n80) * ((__int128)n83));
  int64_t n85 = ((int64_t)v[7]);
  int64_t n86 = ((int64_t)v[7]);
  int64_t n87 = ((int64_t)v[10]);
  int64_t n88 = (((int64_t)n86) * ((int64_t)n87));
  int64_t n89 = ((int64_t)v[9]);
  int64_t n90 = ((int64_t)v[9]);
  int64_t n91 = (-((int64_t)n90));
  int64_t n92 = (((int64_t)n89) * ((int64_t)n91));
  int64_t n93 = ((int64_t)v[10]);
  int64_t n94 = ((int64_t)n5);
  int64_t n95 = (((int64_t)n93) * ((int64_t)n94));
  int64_t n96 = ((int64_t)v[11]);
  int64_t n97 = (((int64_t)n95) + ((int64_t)n96));
  int64_t n98 = (((int64_t)n92) + ((int64_t)n97));
  int64_t n99 = (((int64_t)n88) + ((int64_t)n98));
  __int128 n100 = (((__int128)n85) * ((__int128)n99));
  int64_t n101 = ((int64_t)v[8]);
  int64_t n102 = ((int64_t)n5);
  __int128 n103 = (((__int128)n101) * ((__int128)n102));
  __int128 n104 = (((__int128)n100) + ((__int128)n103));
  __int128 n105 = (((__int128)n84) + ((__int128)n104));
  __int128 n106 = (((__int128)n79) + ((__int128)n105));
  __int128 n107 = (((__int128)n66) + ((__int128)n106));
  __int128 n108 = (((__int128)n61) + ((__int128)n107));
  __int128 n109 = (((__int128)n21) + ((__int128)n108));
  return (((int)(((__int128)n109) > ((__int128)0))) - ((int)(((__int128)n109) < ((__int128)0))));
}

static int lb19_power2(const int64_t *v) {
  int64_t n0 = ((int64_t)v[7]);
  int64_t n1 = (-((int64_t)n0));
  int64_t n2 = ((int64_t)v[10]);
  int64_t n3 = (((int64_t)n1) + ((int64_t)n2));
  return (((int)(((int64_t)n3) > ((int64_t)0))) - ((int)(((int64_t)n3) < ((int64_t)0))));
}

static int lb20_power2(const int64_t *v) {
  int64_t n0 = ((int64_t)v[1]);
  int64_t n1 = ((int64_t)v[7]);
  int64_t n2 = ((int64_t)((int64_t)2));
  int64_t n3 = (((int64_t)n1) * ((int64_t)n2));
  int64_t n4 = ((int64_t)v[10]);
  int64_t n5 = ((int64_t)(-((int64_t)2)));
  int64_t n6 = (((int64_t)n4) * ((int64_t)n5));
  int64_t n7 = (((int64_t)n3) + ((int64_t)n6));
  int64_t n8 = (((int64_t)n0) * ((int64_t)n7));
  int64_t n9 = ((int64_t)v[3]);
  int64_t n10 = ((int64_t)v[6]);
  int64_t n11 = ((int64_t)((int64_t)2));
  int64_t n12 = (((int64_t)n10) * ((int64_t)n11));
  int64_t n13 = ((int64_t)v[9]);
  int64_t n14 = ((int64_t)(-((int64_t)2)));
  int64_t n15 = (((int64_t)n13) * ((int64_t)n14));
  int64_t n16 = (((int64_t)n12) + ((int64_t)n15));
  int64_t n17 = (((int64_t)n9) * ((int64_t)n16));
  int64_t n18 = ((int64_t)v[6]);
  int64_t n19 = ((int64_t)v[6]);
  int64_t n20 = (-((int64_t)n19));
  int64_t n21 = (((int64_t)n18) * ((int64_t)n20));
  int64_t n22 = ((int64_t)v[7]);
  int64_t n23 = ((int64_t)v[7]);
  int64_t n24 = (-((int64_t)n23));
  int64_t n25 = (((int64_t)n22) * ((int64_t)n24));
  int64_t n26 = ((int64_t)v[8]);
  int64_t n27 = ((int64_t)v[9]);
  int64_t n28 = ((int64_t)v[9]);
  int64_t n29 = (((int64_t)n27) * ((int64_t)n28));
  int64_t n30 = ((int64_t)v[10]);
  int64_t n31 = ((int64_t)v[10]);
  int64_t n32 = (((int64_t)n30) * ((int64_t)n31));
  int64_t n33 = ((int64_t)v[11]);
  int64_t n34 = (-((int64_t)n33));
  int64_t n35 = (((int64_t)n32) + ((int64_t)n34));
  int64_t n36 = (((int64_t)n29) + ((int64_t)n35));
  int64_t n37 = (((int64_t)n26) + ((int64_t)n36));
  int64_t n38 = (((int64_t)n25) + ((int64_t)n37));
  int64_t n39 = (((int64_t)n21) + ((int64_t)n38));
  int64_t n40 = (((int64_t)n17) + ((int64_t)n39));
  int64_t n41 = (((int64_t)n8) + ((int64_t)n40));
  return (((int)(((int64_t)n41) > ((int64_t)0))) - ((int)(((int64_t)n41) < ((int64_t)0))));
}

static int lb21_power2(const int64_t *v) {
  int64_t n0 = ((int64_t)v[7]);
  int64_t n1 = ((int64_t)v[10]);
  int64_t n2 = (-((int64_t)n1));
  int64_t n3 = (((int64_t)n0) + ((int64_t)n2));
  return (((int)(((int64_t)n3) > ((int64_t)0))) - ((int)(((int64_t)n3) < ((int64_t)0))));
}

static int lb22_power2(const int64_t *v) {
  int64_t n0 = ((int64_t)v[0]);
  int64_t n1 = ((int64_t)v[7]);
  int64_t n2 = ((int64_t)((int64_t)2));
  int64_t n3 = (((int64_t)n1) * ((int64_t)n2));
  int64_t n4 = ((int64_t)v[10]);
  int64_t n5 = ((int64_t)(-((int64_t)2)));
  int64_t n6 = (((int64_t)n4) * ((int64_t)n5));
  int64_t n7 = (((int64_t)n3) + ((int64_t)n6));
  int64_t n8 = (((int64_t)n0) * ((int64_t)n7));
  int64_t n9 = ((int64_t)v[3]);
  int64_t n10 = ((int64_t)v[7]);
  int64_t n11 = ((int64_t)(-((int64_t)2)));
  int64_t n12 = (((int64_t)n10) * ((int64_t)n11));
  int64_t n13 = ((int64_t)v[10]);
  int64_t n14 = ((int64_t)((int64_t)2));
  int64_t n15 = (((int64_t)n13) * ((int64_t)n14));
  int64_t n16 = (((int64_t)n12) + ((int64_t)n15));
  int64_t n17 = (((int64_t)n9) * ((int64_t)n16));
  int64_t n18 = (((int64_t)n8) + ((int64_t)n17));
  return (((int)(((int64_t)n18) > ((int64_t)0))) - ((int)(((int64_t)n18) < ((int64_t)0))));
}

static int lb23_power2(const int64_t *v) {
  int64_t n0 = ((int64_t)v[7]);
  int64_t n1 = ((int64_t)v[10]);
  int64_t n2 = (-((int64_t)n1));
  int64_t n3 = (((int64_t)n0) + ((int64_t)n2));
  return (((int)(((int64_t)n3) > ((int64_t)0))) - ((int)(((int64_t)n3) < ((int64_t)0))));
}

static int lb24_power2(const int64_t *v) {
  int64_t n0 = ((int64_t)v[0]);
  int64_t n1 = ((int64_t)v[7]);
  int64_t n2 = (-((int64_t)n1));
  int64_t n3 = ((int64_t)v[10]);
  int64_t n4 = (((int64_t)n2) + ((int64_t)n3));
  int64_t n5 = (((int64_t)n0) * ((int64_t)n4));
  int64_t n6 = ((int64_t)v[1]);
  int64_t n7 = ((int64_t)v[6]);
  int64_t n8 = ((int64_t)v[9]);
  int64_t n9 = (-((int64_t)n8));
  int64_t n10 = (((int64_t)n7) + ((int64_t)n9));
  int64_t n11 = (((int64_t)n6) * ((int64_t)n10));
  int64_t n12 = ((int64_t)v[6]);
  int64_t n13 = ((int64_t)v[10]);
  int64_t n14 = (-((int64_t)n13));
  int64_t n15 = (((int64_t)n12) * ((int64_t)n14));
  int64_t n16 = ((int64_t)v[7]);
  int64_t n17 = ((int64_t)v[9]);
  int64_t n18 = (((int64_t)n16) * ((int64_t)n17));
  int64_t n19 = (((int64_t)n15) + ((int64_t)n18));
  int64_t n20 = (((int64_t)n11) + ((int64_t)n19));
  int64_t n21 = (((int64_t)n5) + ((int64_t)n20));
  return (((int)(((int64_t)n21) > ((int64_t)0))) - ((int)(((int64_t)n21) < ((int64_t)0))));
}

static int lb25_power2(const int64_t *v) {
  int64_t n0 = ((int64_t)v[6]);
  int64_t n1 = ((int64_t)v[9]);
  int64_t n2 = (-((int64_t)n1));
  int64_t n3 = (((int64_t)n0) + ((int64_t)n2));
  return (((int)(((int64_t)n3) > ((int64_t)0))) - ((int)(((int64_t)n3) < ((int64_t)0))));
}

static int lb26_power2(const int64_t *v) {
  int64_t n0 = ((int64_t)v[7]);
  int64_t n1 = (-((int64_t)n0));
  int64_t n2 = ((int64_t)v[10]);
  int64_t n3 = (((int64_t)n1) + ((int64_t)n2));
  return (((int)(((int64_t)n3) > ((int64_t)0))) - ((int)(((int64_t)n3) < ((int64_t)0))));
}

static int lb27_power2(const int64_t *v) {
  int64_t n0 = ((int64_t)v[0]);
  int64_t n1 = ((int64_t)v[4]);
  int64_t n2 = (-((int64_t)n1));
  int64_t n3 = ((int64_t)v[10]);
  int64_t n4 = (((int64_t)n2) + ((int64_t)n3));
  int64_t n5 = (((int64_t)n0) * ((int64_t)n4));
  int64_t n6 = ((int64_t)v[1]);
  int64_t n7 = ((int64_t)v[3]);
  int64_t n8 = ((int64_t)v[9]);
  int64_t n9 = (-((int64_t)n8));
  int64_t n10 = (((int64_t)n7) + ((int64_t)n9));
  int64_t n11 = (((int64_t)n6) * ((int64_t)n10));
  int64_t n12 = ((int64_t)v[3]);
  int64_t n13 = ((int64_t)v[10]);
  int64_t n14 = (-((int64_t)n13));
  int64_t n15 = (((int64_t)n12) * ((int64_t)n14));
  int64_t n16 = ((int64_t)v[4]);
  int64_t n17 = ((int64_t)v[9]);
  int64_t n18 = (((int64_t)n16) * ((int64_t)n17));
  int64_t n19 = (((int64_t)n15) + ((int64_t)n18));
  int64_t n20 = (((int64_t)n11) + ((int64_t)n19));
  int64_t n21 = (((int64_t)n5) + ((int64_t)n20));
  return (((int)(((int64_t)n21) > ((int64_t)0))) - ((int)(((int64_t)n21) < ((int64_t)0))));
}

static int lb28_power2(const int64_t *v) {
  int64_t n0 = ((int64_t)v[3]);
  int64_t n1 = ((int64_t)v[9]);
  int64_t n2 = (-((int64_t)n1));
  int64_t n3 = (((int64_t)n0) + ((int64_t)n2));
  return (((int)(((int64_t)n3) > ((int64_t)0))) - ((int)(((int64_t)n3) < ((int64_t)0))));
}

static int lb29_power2(const int64_t *v) {
  int64_t n0 = ((int64_t)v[4]);
  int64_t n1 = (-((int64_t)n0));
  int64_t n2 = ((int64_t)v[10]);
  int64_t n3 = (((int64_t)n1) + ((int64_t)n2));
  return (((int)(((int64_t)n3) > ((int64_t)0))) - ((int)(((int64_t)n3) < ((int64_t)0))));
}

static int lb30_power2(const int64_t *v) {
  int64_t n0 = ((int64_t)v[0]);
  int64_t n1 = (-((int64_t)n0));
  int64_t n2 = ((int64_t)v[9]);
  int64_t n3 = (((int64_t)n1) + ((int64_t)n2));
  return (((int)(((int64_t)n3) > ((int64_t)0))) - ((int)(((int64_t)n3) < ((int64_t)0))));
}

static int lb31_power2(const int64_t *v) {
  if (((int)0)) {
    return ((int)v[0]);
  }
  int64_t n0 = ((int64_t)(-((int64_t)1)));
  return (((int)(((int64_t)n0) > ((int64_t)0))) - ((int)(((int64_t)n0) < ((int64_t)0))));
}

int la_power2(const int64_t *x, const int64_t *v) {
  {
    int answer = ((int)lb0_power2(v));
    if ((((int)answer) != ((int)0))) {
      return ((int)answer);
    }
  }
  {
    int answer = ((int)lb1_power2(v));
    if ((((int)answer) != ((int)0))) {
      return ((int)answer);
    }
  }
  {
    int answer = ((int)lb2_power2(v));
    if ((((int)answer) != ((int)0))) {
      return ((int)answer);
    }
  }
  {
    int answer = ((int)lb3_power2(v));
    if ((((int)answer) != ((int)0))) {
      return ((int)answer);
    }
  }
  {
    int answer = ((int)lb4_power2(v));
    if ((((int)answer) != ((int)0))) {
      return ((int)answer);
    }
  }
  {
    int answer = ((int)lb5_power2(v));
    if ((((int)answer) != ((int)0))) {
      return ((int)answer);
    }
  }
  {
    int answer = ((int)lb6_power2(v));
    if ((((int)answer) != ((int)0))) {
      return ((int)answer);
    }
  }
  {
    int answer = ((int)lb7_power2(v));
    if ((((int)answer) != ((int)0))) {
      return ((int)answer);
    }
  }
  {
    int answer = ((int)lb8_power2(v));
    if ((((int)answer) != ((int)0))) {
      return ((int)answer);
    }
  }
  {
    int answer = ((int)lb9_power2(v));
    if ((((int)answer) != ((int)0))) {
      return ((int)answer);
    }
  }
  {
    int answer = ((int)lb10_power2(v));
    if ((((int)answer) != ((int)0))) {
      return ((int)answer);
    }
  }
  {
    int answer = ((int)lb11_power2(v));
    if ((((int)answer) != ((int)0))) {
      return ((int)answer);
    }
  }
  {
    int answer = ((int)lb12_power2(v));
    if ((((int)answer) != ((int)0))) {
      return ((int)answer);
    }
  }
  {
    int answer = ((int)lb13_power2(v));
    if ((((int)answer) != ((int)0))) {
      return ((int)answer);
    }
  }
  {
    int answer = ((int)lb14_power2(v));
    if ((((int)answer) != ((int)0))) {
      return ((int)answer);
    }
  }
  {
    int answer = ((int)lb15_power2(v));
    if ((((int)answer) != ((int)0))) {
      return ((int)answer);
    }
  }
  {
    int answer = ((int)lb16_power2(v));
    if ((((int)answer) != ((int)0))) {
      return ((int)answer);
    }
  }
  {
    int answer = ((int)lb17_power2(v));
    if ((((int)answer) != ((int)0))) {
      return ((int)answer);
    }
  }
  {
    int answer = ((int)lb18_power2(v));
    if ((((int)answer) != ((int)0))) {
      return ((int)answer);
    }
  }
  {
    int answer = ((int)lb19_power2(v));
    if ((((int)answer) != ((int)0))) {
      return ((int)answer);
    }
  }
  {
    int answer = ((int)lb20_power2(v));
    if ((((int)answer) != ((int)0))) {
      return ((int)answer);
    }
  }
  {
    int answer = ((int)lb21_power2(v));
    if ((((int)answer) != ((int)0))) {
      return ((int)answer);
    }
  }
  {
    int answer = ((int)lb22_power2(v));
    if ((((int)answer) != ((int)0))) {
      return ((int)answer);
    }
  }
  {
    int answer = ((int)lb23_power2(v));
    if ((((int)answer) != ((int)0))) {
      return ((int)answer);
    }
  }
  {
    int answer = ((int)lb24_power2(v));
    if ((((int)answer) != ((int)0))) {
      return ((int)answer);
    }
  }
  {
    int answer = ((int)lb25_power2(v));
    if ((((int)answer) != ((int)0))) {
      return ((int)answer);
    }
  }
  {
    int answer = ((int)lb26_power2(v));
    if ((((int)answer) != ((int)0))) {
      return ((int)answer);
    }
  }
  {
    int answer = ((int)lb27_power2(v));
    if ((((int)answer) != ((int)0))) {
      return ((int)answer);
    }
  }
  {
    int answer = ((int)lb28_power2(v));
    if ((((int)answer) != ((int)0))) {
      return ((int)answer);
    }
  }
  {
    int answer = ((int)lb29_power2(v));
    if ((((int)answer) != ((int)0))) {
      return ((int)answer);
    }
  }
  {
    int answer = ((int)lb30_power2(v));
    if ((((int)answer) != ((int)0))) {
      return ((int)answer);
    }
  }
  {
    int answer = ((int)lb31_power2(v));
    if ((((int)answer) != ((int)0))) {
      return ((int)answer);
    }
  }
  if ((((int64_t)x[0]) < ((int64_t)x[1]))) {
    if ((((int64_t)x[0]) < ((int64_t)x[2]))) {
      if ((((int64_t)x[0]) < ((int64_t)x[3]))) {
        if ((((int64_t)x[1]) < ((int64_t)x[2]))) {
          if ((((int64_t)x[1]) < ((int64_t)x[3]))) {
            if ((((int64_t)x[2]) < ((int64_t)x[3]))) {
              return ((int)0);
            }
            return ((int)0);
          }
        }
        if ((((int64_t)x[2]) < ((int64_t)x[3]))) {
          if ((((int64_t)x[1]) < ((int64_t)x[3]))) {
            return ((int)0);
          }
          return ((int)0);
        }
        if ((((int64_t)x[1]) < ((int64_t)x[2]))) {
          return ((int)0);
        }
        return ((int)0);
      }
    }
  }
  if ((((int64_t)x[1]) < ((int64_t)x[2]))) {
    if ((((int64_t)x[1]) < ((int64_t)x[3]))) {
      if ((((int64_t)x[0]) < ((int64_t)x[2]))) {
        if ((((int64_t)x[0]) < ((int64_t)x[3]))) {
          if ((((int64_t)x[2]) < ((int64_t)x[3]))) {
            return ((int)0);
          }
          return ((int)0);
        }
      }
      if ((((int64_t)x[2]) < ((int64_t)x[3]))) {
        if ((((int64_t)x[0]) < ((int64_t)x[3]))) {
          return ((int)0);
        }
        return ((int)0);
      }
      if ((((int64_t)x[0]) < ((int64_t)x[2]))) {
        return ((int)0);
      }
      return ((int)0);
    }
  }
  if ((((int64_t)x[2]) < ((int64_t)x[3]))) {
    if ((((int64_t)x[0]) < ((int64_t)x[1]))) {
      if ((((int64_t)x[0]) < ((int64_t)x[3]))) {
        if ((((int64_t)x[1]) < ((int64_t)x[3]))) {
          return ((int)0);
        }
        return ((int)0);
      }
    }
    if ((((int64_t)x[1]) < ((int64_t)x[3]))) {
      if ((((int64_t)x[0]) < ((int64_t)x[3]))) {
        return ((int)0);
      }
      return ((int)0);
    }
    if ((((int64_t)x[0]) < ((int64_t)x[1]))) {
      return ((int)0);
    }
    return ((int)0);
  }
  if ((((int64_t)x[0]) < ((int64_t)x[1]))) {
    if ((((int64_t)x[0]) < ((int64_t)x[2]))) {
      if ((((int64_t)x[1]) < ((int64_t)x[2]))) {
        return ((int)0);
      }
      return ((int)0);
    }
  }
  if ((((int64_t)x[1]) < ((int64_t)x[2]))) {
    if ((((int64_t)x[0]) < ((int64_t)x[2]))) {
      return ((int)0);
    }
    return ((int)0);
  }
  if ((((int64_t)x[0]) < ((int64_t)x[1]))) {
    return ((int)0);
  }
  return ((int)0);
}

static int lb0_wdiametral2(const int64_t *v) {
  int64_t n0 = ((int64_t)v[0]);
  int64_t n1 = ((int64_t)v[6]);
  int64_t n2 = (((int64_t)n0) - ((int64_t)n1));
  int64_t n3 = ((int64_t)v[6]);
  int64_t n4 = ((int64_t)v[3]);
  int64_t n5 = (((int64_t)n3) - ((int64_t)n4));
  int64_t n6 = (((int64_t)n2) * ((int64_t)n5));
  int64_t n7 = ((int64_t)v[1]);
  int64_t n8 = ((int64_t)v[7]);
  int64_t n9 = (((int64_t)n7) - ((int64_t)n8));
  int64_t n10 = ((int64_t)v[7]);
  int64_t n11 = ((int64_t)v[4]);
  int64_t n12 = (((int64_t)n10) - ((int64_t)n11));
  int64_t n13 = (((int64_t)n9) * ((int64_t)n12));
  int64_t n14 = (((int64_t)n6) + ((int64_t)n13));
  return (((int)(((int64_t)n14) > ((int64_t)0))) - ((int)(((int64_t)n14) < ((int64_t)0))));
}

static int lb1_wdiametral2(const int64_t *v) {
  int64_t n0 = ((int64_t)v[4]);
  int64_t n1 = (-((int64_t)n0));
  int64_t n2 = ((int64_t)v[7]);
  int64_t n3 = (((int64_t)n1) + ((int64_t)n2));
  return (((int)(((int64_t)n3) > ((int64_t)0))) - ((int)(((int64_t)n3) < ((int64_t)0))));
}

static int lb2_wdiametral2(const int64_t *v) {
  int64_t n0 = ((int64_t)v[3]);
  int64_t n1 = (-((int64_t)n0));
  int64_t n2 = ((int64_t)v[6]);
  int64_t n3 = (((int64_t)n1) + ((int64_t)n2));
  return (((int)(((int64_t)n3) > ((int64_t)0))) - ((int)(((int64_t)n3) < ((int64_t)0))));
}

static int lb3_wdiametral2(const int64_t *v) {
  int64_t n0 = ((int64_t)v[1]);
  int64_t n1 = (-((int64_t)n0));
  int64_t n2 = ((int64_t)v[7]);
  int64_t n3 = (((int64_t)n1) + ((int64_t)n2));
  return (((int)(((int64_t)n3) > ((int64_t)0))) - ((int)(((int64_t)n3) < ((int64_t)0))));
}

static int lb4_wdiametral2(const int64_t *v) {
  if (((int)0)) {
    return ((int)v[0]);
  }
  int64_t n0 = ((int64_t)(-((int64_t)1)));
  return (((int)(((int64_t)n0) > ((int64_t)0))) - ((int)(((int64_t)n0) < ((int64_t)0))));
}

static int lb5_wdiametral2(const int64_t *v) {
  int64_t n0 = ((int64_t)v[1]);
  int64_t n1 = ((int64_t)v[4]);
  int64_t n2 = ((int64_t)v[7]);
  int64_t n3 = ((int64_t)(-((int64_t)2)));
  int64_t n4 = (((int64_t)n2) * ((int64_t)n3));
  int64_t n5 = (((int64_t)n1) + ((int64_t)n4));
  int64_t n6 = (((int64_t)n0) + ((int64_t)n5));
  return (((int)(((int64_t)n6) > ((int64_t)0))) - ((int)(((int64_t)n6) < ((int64_t)0))));
}

static int lb6_wdiametral2(const int64_t *v) {
  if (((int)0)) {
    return ((int)v[0]);
  }
  int64_t n0 = ((int64_t)((int64_t)1));
  return (((int)(((int64_t)n0) > ((int64_t)0))) - ((int)(((int64_t)n0) < ((int64_t)0))));
}

static int lb7_wdiametral2(const int64_t *v) {
  int64_t n0 = ((int64_t)v[0]);
  int64_t n1 = (-((int64_t)n0));
  int64_t n2 = ((int64_t)v[6]);
  int64_t n3 = (((int64_t)n1) + ((int64_t)n2));
  return (((int)(((int64_t)n3) > ((int64_t)0))) - ((int)(((int64_t)n3) < ((int64_t)0))));
}

static int lb8_wdiametral2(const int64_t *v) {
  if (((int)0)) {
    return ((int)v[0]);
  }
  int64_t n0 = ((int64_t)((int64_t)1));
  return (((int)(((int64_t)n0) > ((int64_t)0))) - ((int)(((int64_t)n0) < ((int64_t)0))));
}

static int lb9_wdiametral2(const int64_t *v) {
  if (((int)0)) {
    return ((int)v[0]);
  }
  int64_t n0 = ((int64_t)(-((int64_t)1)));
  return (((int)(((int64_t)n0) > ((int64_t)0))) - ((int)(((int64_t)n0) < ((int64_t)0))));
}

int ln_wdiametral2(const int64_t *x, const int64_t *v) {
  {
    int answer = ((int)lb0_wdiametral2(v));
    if ((((int)answer) != ((int)0))) {
      return ((int)answer);
    }
  }
  if ((((int64_t)x[0]) < ((int64_t)x[1]))) {
    if ((((int64_t)x[0]) < ((int64_t)x[2]))) {
      {
        int answer = ((int)lb1_wdiametral2(v));
        if ((((int)answer) != ((int)0))) {
          return ((int)answer);
        }
      }
      {
        int answer = ((int)lb2_wdiametral2(v));
        if ((((int)answer) != ((int)0))) {
          return ((int)answer);
        }
      }
      if ((((int64_t)x[1]) < ((int64_t)x[2]))) {
        {
          int answer = ((int)lb3_wdiametral2(v));
          if ((((int)answer) != ((int)0))) {
            return ((int)answer);
          }
        }
        {
          int answer = ((int)lb4_wdiametral2(v));
          if ((((int)answer) != ((int)0))) {
            return ((int)answer);
          }
        }
        return ((int)0);
      }
      {
        int answer = ((int)lb5_wdiametral2(v));
        if ((((int)answer) != ((int)0))) {
          return ((int)answer);
        }
      }
      {
        int answer = ((int)lb6_wdiametral2(v));
        if ((((int)answer) != ((int)0))) {
          return ((int)answer);
        }
      }
      return ((int)0);
    }
  }
  if ((((int64_t)x[1]) < ((int64_t)x[2]))) {
    {
      int answer = ((int)lb3_wdiametral2(v));
      if ((((int)answer) != ((int)0))) {
        return ((int)answer);
      }
    }
    {
      int answer = ((int)lb7_wdiametral2(v));
      if ((((int)answer) != ((int)0))) {
        return ((int)answer);
      }
    }
    if ((((int64_t)x[0]) < ((int64_t)x[2]))) {
      {
        int answer = ((int)lb1_wdiametral2(v));
        if ((((int)answer) != ((int)0))) {
          return ((int)answer);
        }
      }
      {
        int answer = ((int)lb4_wdiametral2(v));
        if ((((int)answer) != ((int)0))) {
          return ((int)answer);
        }
      }
      return ((int)0);
    }
    {
      int answer = ((int)lb5_wdiametral2(v));
      if ((((int)answer) != ((int)0))) {
        return ((int)answer);
      }
    }
    {
      int answer = ((int)lb8_wdiametral2(v));
      if ((((int)answer) != ((int)0))) {
        return ((int)answer);
      }
    }
    return ((int)0);
  }
  {
    int answer = ((int)lb5_wdiametral2(v));
    if ((((int)answer) != ((int)0))) {
      return ((int)answer);
    }
  }
  {
    int answer = ((int)lb9_wdiametral2(v));
    if ((((int)answer) != ((int)0))) {
      return ((int)answer);
    }
  }
  if ((((int64_t)x[0]) < ((int64_t)x[1]))) {
    return ((int)0);
  }
  return ((int)0);
}

static int lb0_wcompare_x2(const int64_t *v) {
  int64_t n0 = ((int64_t)v[0]);
  int64_t n1 = ((int64_t)v[3]);
  int64_t n2 = (((int64_t)n0) - ((int64_t)n1));
  return (((int)(((int64_t)n2) > ((int64_t)0))) - ((int)(((int64_t)n2) < ((int64_t)0))));
}

static int lb1_wcompare_x2(const int64_t *v) {
  if (((int)0)) {
    return ((int)v[0]);
  }
  int64_t n0 = ((int64_t)((int64_t)1));
  return (((int)(((int64_t)n0) > ((int64_t)0))) - ((int)(((int64_t)n0) < ((int64_t)0))));
}

int la_wcompare_x2(const int64_t *x, const int64_t *v) {
  {
    int answer = ((int)lb0_wcompare_x2(v));
    if ((((int)answer) != ((int)0))) {
      return ((int)answer);
    }
  }
  {
    int answer = ((int)lb1_wcompare_x2(v));
    if ((((int)answer) != ((int)0))) {
      return ((int)answer);
    }
  }
  if ((((int64_t)x[0]) < ((int64_t)x[1]))) {
    return ((int)0);
  }
  return ((int)0);
}

static int lb0_wcompare_y2(const int64_t *v) {
  int64_t n0 = ((int64_t)v[1]);
  int64_t n1 = ((int64_t)v[4]);
  int64_t n2 = (((int64_t)n0) - ((int64_t)n1));
  return (((int)(((int64_t)n2) > ((int64_t)0))) - ((int)(((int64_t)n2) < ((int64_t)0))));
}

static int lb1_wcompare_y2(const int64_t *v) {
  if (((int)0)) {
    return ((int)v[0]);
  }
  int64_t n0 = ((int64_t)((int64_t)1));
  return (((int)(((int64_t)n0) > ((int64_t)0))) - ((int)(((int64_t)n0) < ((int64_t)0))));
}

int la_wcompare_y2(const int64_t *x, const int64_t *v) {
  {
    int answer = ((int)lb0_wcompare_y2(v));
    if ((((int)answer) != ((int)0))) {
      return ((int)answer);
    }
  }
  {
    int answer = ((int)lb1_wcompare_y2(v));
    if ((((int)answer) != ((int)0))) {
      return ((int)answer);
    }
  }
  if ((((int64_t)x[0]) < ((int64_t)x[1]))) {
    return ((int)0);
  }
  return ((int)0);
}

static int lb0_wcompare_w2(const int64_t *v) {
  int64_t n0 = ((int64_t)v[2]);
  int64_t n1 = ((int64_t)v[5]);
  int64_t n2 = (((int64_t)n0) - ((int64_t)n1));
  return (((int)(((int64_t)n2) > ((int64_t)0))) - ((int)(((int64_t)n2) < ((int64_t)0))));
}

static int lb1_wcompare_w2(const int64_t *v) {
  if (((int)0)) {
    return ((int)v[0]);
  }
  int64_t n0 = ((int64_t)((int64_t)1));
  return (((int)(((int64_t)n0) > ((int64_t)0))) - ((int)(((int64_t)n0) < ((int64_t)0))));
}

int la_wcompare_w2(const int64_t *x, const int64_t *v) {
  {
    int answer = ((int)lb0_wcompare_w2(v));
    if ((((int)answer) != ((int)0))) {
      return ((int)answer);
    }
  }
  {
    int answer = ((int)lb1_wcompare_w2(v));
    if ((((int)answer) != ((int)0))) {
      return ((int)answer);
    }
  }
  if ((((int64_t)x[0]) < ((int64_t)x[1]))) {
    return ((int)0);
  }
  return ((int)0);
}

static int lb0_wlexicographic2(const int64_t *v) {
  int64_t n0 = ((int64_t)v[0]);
  int64_t n1 = ((int64_t)v[3]);
  int64_t n2 = (((int64_t)n0) - ((int64_t)n1));
  int64_t n3 = ((int64_t)((int64_t)1073741825));
  int64_t n4 = (((int64_t)n2) * ((int64_t)n3));
  int64_t n5 = ((int64_t)v[1]);
  int64_t n6 = ((int64_t)v[4]);
  int64_t n7 = (((int64_t)n5) - ((int64_t)n6));
  int64_t n8 = (((int64_t)n4) + ((int64_t)n7));
  return (((int)(((int64_t)n8) > ((int64_t)0))) - ((int)(((int64_t)n8) < ((int64_t)0))));
}

static int lb1_wlexicographic2(const int64_t *v) {
  if (((int)0)) {
    return ((int)v[0]);
  }
  int64_t n0 = ((int64_t)((int64_t)1));
  return (((int)(((int64_t)n0) > ((int64_t)0))) - ((int)(((int64_t)n0) < ((int64_t)0))));
}

int la_wlexicographic2(const int64_t *x, const int64_t *v) {
  {
    int answer = ((int)lb0_wlexicographic2(v));
    if ((((int)answer) != ((int)0))) {
      return ((int)answer);
    }
  }
  {
    int answer = ((int)lb1_wlexicographic2(v));
    if ((((int)answer) != ((int)0))) {
      return ((int)answer);
    }
  }
  if ((((int64_t)x[0]) < ((int64_t)x[1]))) {
    return ((int)0);
  }
  return ((int)0);
}

static int lb0_wcompare_distance2(const int64_t *v) {
  int64_t n0 = ((int64_t)v[0]);
  int64_t n1 = ((int64_t)v[3]);
  int64_t n2 = (((int64_t)n0) - ((int64_t)n1));
  int64_t n3 = ((int64_t)n2);
  int64_t n4 = ((int64_t)n3);
  int64_t n5 = ((int64_t)n3);
  int64_t n6 = (((int64_t)n4) * ((int64_t)n5));
  int64_t n7 = ((int64_t)v[0]);
  int64_t n8 = ((int64_t)v[6]);
  int64_t n9 = (((int64_t)n7) - ((int64_t)n8));
  int64_t n10 = ((int64_t)n9);
  int64_t n11 = ((int64_t)n10);
  int64_t n12 = ((int64_t)n10);
  int64_t n13 = (((int64_t)n11) * ((int64_t)n12));
  int64_t n14 = (((int64_t)n6) - ((int64_t)n13));
  int64_t n15 = ((int64_t)v[1]);
  int64_t n16 = ((int64_t)v[4]);
  int64_t n17 = (((int64_t)n15) - ((int64_t)n16));
  int64_t n18 = ((int64_t)n17);
  int64_t n19 = ((int64_t)n18);
  int64_t n20 = ((int64_t)n18);
  int64_t n21 = (((int64_t)n19) * ((int64_t)n20));
  int64_t n22 = (((int64_t)n14) + ((int64_t)n21));
  int64_t n23 = ((int64_t)v[1]);
  int64_t n24 = ((int64_t)v[7]);
  int64_t n25 = (((int64_t)n23) - ((int64_t)n24));
  int64_t n26 = ((int64_t)n25);
  int64_t n27 = ((int64_t)n26);
  int64_t n28 = ((int64_t)n26);
  int64_t n29 = (((int64_t)n27) * ((int64_t)n28));
  int64_t n30 = (((int64_t)n22) - ((int64_t)n29));
  return (((int)(((int64_t)n30) > ((int64_t)0))) - ((int)(((int64_t)n30) < ((int64_t)0))));
}

static int lb1_wcompare_distance2(const int64_t *v) {
  int64_t n0 = ((int64_t)v[4]);
  int64_t n1 = ((int64_t)(-((int64_t)2)));
  int64_t n2 = (((int64_t)n0) * ((int64_t)n1));
  int64_t n3 = ((int64_t)v[7]);
  int64_t n4 = ((int64_t)((int64_t)2));
  int64_t n5 = (((int64_t)n3) * ((int64_t)n4));
  int64_t n6 = (((int64_t)n2) + ((int64_t)n5));
  return (((int)(((int64_t)n6) > ((int64_t)0))) - ((int)(((int64_t)n6) < ((int64_t)0))));
}

static int lb2_wcompare_distance2(const int64_t *v) {
  int64_t n0 = ((int64_t)v[3]);
  int64_t n1 = ((int64_t)(-((int64_t)2)));
  int64_t n2 = (((int64_t)n0) * ((int64_t)n1));
  int64_t n3 = ((int64_t)v[6]);
  int64_t n4 = ((int64_t)((int64_t)2));
  int64_t n5 = (((int64_t)n3) * ((int64_t)n4));
  int64_t n6 = (((int64_t)n2) + ((int64_t)n5));
  return (((int)(((int64_t)n6) > ((int64_t)0))) - ((int)(((int64_t)n6) < ((int64_t)0))));
}

static int lb3_wcompare_distance2(const int64_t *v) {
  int64_t n0 = ((int64_t)v[1]);
  int64_t n1 = ((int64_t)(-((int64_t)2)));
  int64_t n2 = (((int64_t)n0) * ((int64_t)n1));
  int64_t n3 = ((int64_t)v[4]);
  int64_t n4 = ((int64_t)((int64_t)2));
  int64_t n5 = (((int64_t)n3) * ((int64_t)n4));
  int64_t n6 = (((int64_t)n2) + ((int64_t)n5));
  return (((int)(((int64_t)n6) > ((int64_t)0))) - ((int)(((int64_t)n6) < ((int64_t)0))));
}

static int lb4_wcompare_distance2(const int64_t *v) {
  if (((int)0)) {
    return ((int)v[0]);
  }
  int64_t n0 = ((int64_t)(-((int64_t)2)));
  return (((int)(((int64_t)n0) > ((int64_t)0))) - ((int)(((int64_t)n0) < ((int64_t)0))));
}

static int lb5_wcompare_distance2(const int64_t *v) {
  int64_t n0 = ((int64_t)v[1]);
  int64_t n1 = ((int64_t)((int64_t)2));
  int64_t n2 = (((int64_t)n0) * ((int64_t)n1));
  int64_t n3 = ((int64_t)v[7]);
  int64_t n4 = ((int64_t)(-((int64_t)2)));
  int64_t n5 = (((int64_t)n3) * ((int64_t)n4));
  int64_t n6 = (((int64_t)n2) + ((int64_t)n5));
  return (((int)(((int64_t)n6) > ((int64_t)0))) - ((int)(((int64_t)n6) < ((int64_t)0))));
}

static int lb6_wcompare_distance2(const int64_t *v) {
  if (((int)0)) {
    return ((int)v[0]);
  }
  int64_t n0 = ((int64_t)((int64_t)2));
  return (((int)(((int64_t)n0) > ((int64_t)0))) - ((int)(((int64_t)n0) < ((int64_t)0))));
}

static int lb7_wcompare_distance2(const int64_t *v) {
  if (((int)0)) {
    return ((int)v[0]);
  }
  int64_t n0 = ((int64_t)((int64_t)1));
  return (((int)(((int64_t)n0) > ((int64_t)0))) - ((int)(((int64_t)n0) < ((int64_t)0))));
}

static int lb8_wcompare_distance2(const int64_t *v) {
  if (((int)0)) {
    return ((int)v[0]);
  }
  int64_t n0 = ((int64_t)(-((int64_t)1)));
  return (((int)(((int64_t)n0) > ((int64_t)0))) - ((int)(((int64_t)n0) < ((int64_t)0))));
}

int ln_wcompare_distance2(const int64_t *x, const int64_t *v) {
  {
    int answer = ((int)lb0_wcompare_distance2(v));
    if ((((int)answer) != ((int)0))) {
      return ((int)answer);
    }
  }
  if ((((int64_t)x[0]) < ((int64_t)x[1]))) {
    if ((((int64_t)x[0]) < ((int64_t)x[2]))) {
      {
        int answer = ((int)lb1_wcompare_distance2(v));
        if ((((int)answer) != ((int)0))) {
          return ((int)answer);
        }
      }
      {
        int answer = ((int)lb2_wcompare_distance2(v));
        if ((((int)answer) != ((int)0))) {
          return ((int)answer);
        }
      }
      if ((((int64_t)x[1]) < ((int64_t)x[2]))) {
        {
          int answer = ((int)lb3_wcompare_distance2(v));
          if ((((int)answer) != ((int)0))) {
            return ((int)answer);
          }
        }
        {
          int answer = ((int)lb4_wcompare_distance2(v));
          if ((((int)answer) != ((int)0))) {
            return ((int)answer);
          }
        }
        return ((int)0);
      }
      {
        int answer = ((int)lb5_wcompare_distance2(v));
        if ((((int)answer) != ((int)0))) {
          return ((int)answer);
        }
      }
      {
        int answer = ((int)lb6_wcompare_distance2(v));
        if ((((int)answer) != ((int)0))) {
          return ((int)answer);
        }
      }
      return ((int)0);
    }
  }
  if ((((int64_t)x[1]) < ((int64_t)x[2]))) {
    {
      int answer = ((int)lb3_wcompare_distance2(v));
      if ((((int)answer) != ((int)0))) {
        return ((int)answer);
      }
    }
    {
      int answer = ((int)lb7_wcompare_distance2(v));
      if ((((int)answer) != ((int)0))) {
        return ((int)answer);
      }
    }
    if ((((int64_t)x[0]) < ((int64_t)x[2]))) {
      return ((int)0);
    }
    return ((int)0);
  }
  {
    int answer = ((int)lb5_wcompare_distance2(v));
    if ((((int)answer) != ((int)0))) {
      return ((int)answer);
    }
  }
  {
    int answer = ((int)lb8_wcompare_distance2(v));
    if ((((int)answer) != ((int)0))) {
      return ((int)answer);
    }
  }
  if ((((int64_t)x[0]) < ((int64_t)x[1]))) {
    return ((int)0);
  }
  return ((int)0);
}

static int lb0_compare_power2(const int64_t *v) {
  int64_t n0 = ((int64_t)v[0]);
  int64_t n1 = ((int64_t)v[3]);
  int64_t n2 = (((int64_t)n0) - ((int64_t)n1));
  int64_t n3 = ((int64_t)n2);
  int64_t n4 = ((int64_t)n3);
  int64_t n5 = ((int64_t)n3);
  int64_t n6 = (((int64_t)n4) * ((int64_t)n5));
  int64_t n7 = ((int64_t)v[0]);
  int64_t n8 = ((int64_t)v[6]);
  int64_t n9 = (((int64_t)n7) - ((int64_t)n8));
  int64_t n10 = ((int64_t)n9);
  int64_t n11 = ((int64_t)n10);
  int64_t n12 = ((int64_t)n10);
  int64_t n13 = (((int64_t)n11) * ((int64_t)n12));
  int64_t n14 = (((int64_t)n6) - ((int64_t)n13));
  int64_t n15 = ((int64_t)v[1]);
  int64_t n16 = ((int64_t)v[4]);
  int64_t n17 = (((int64_t)n15) - ((int64_t)n16));
  int64_t n18 = ((int64_t)n17);
  int64_t n19 = ((int64_t)n18);
  int64_t n20 = ((int64_t)n18);
  int64_t n21 = (((int64_t)n19) * ((int64_t)n20));
  int64_t n22 = (((int64_t)n14) + ((int64_t)n21));
  int64_t n23 = ((int64_t)v[1]);
  int64_t n24 = ((int64_t)v[7]);
  int64_t n25 = (((int64_t)n23) - ((int64_t)n24));
  int64_t n26 = ((int64_t)n25);
  int64_t n27 = ((int64_t)n26);
  int64_t n28 = ((int64_t)n26);
  int64_t n29 = (((int64_t)n27) * ((int64_t)n28));
  int64_t n30 = (((int64_t)n22) - ((int64_t)n29));
  int64_t n31 = ((int64_t)v[5]);
  int64_t n32 = (((int64_t)n30) - ((int64_t)n31));
  int64_t n33 = ((int64_t)v[8]);
  int64_t n34 = (((int64_t)n32) + ((int64_t)n33));
  return (((int)(((int64_t)n34) > ((int64_t)0))) - ((int)(((int64_t)n34) < ((int64_t)0))));
}

static int lb1_compare_power2(const int64_t *v) {
  int64_t n0 = ((int64_t)v[4]);
  int64_t n1 = ((int64_t)(-((int64_t)2)));
  int64_t n2 = (((int64_t)n0) * ((int64_t)n1));
  int64_t n3 = ((int64_t)v[7]);
  int64_t n4 = ((int64_t)((int64_t)2));
  int64_t n5 = (((int64_t)n3) * ((int64_t)n4));
  int64_t n6 = (((int64_t)n2) + ((int64_t)n5));
  return (((int)(((int64_t)n6) > ((int64_t)0))) - ((int)(((int64_t)n6) < ((int64_t)0))));
}

static int lb2_compare_power2(const int64_t *v) {
  int64_t n0 = ((int64_t)v[3]);
  int64_t n1 = ((int64_t)(-((int64_t)2)));
  int64_t n2 = (((int64_t)n0) * ((int64_t)n1));
  int64_t n3 = ((int64_t)v[6]);
  int64_t n4 = ((int64_t)((int64_t)2));
  int64_t n5 = (((int64_t)n3) * ((int64_t)n4));
  int64_t n6 = (((int64_t)n2) + ((int64_t)n5));
  return (((int)(((int64_t)n6) > ((int64_t)0))) - ((int)(((int64_t)n6) < ((int64_t)0))));
}

static int lb3_compare_power2(const int64_t *v) {
  if (((int)0)) {
    return ((int)v[0]);
  }
  int64_t n0 = ((int64_t)(-((int64_t)1)));
  return (((int)(((int64_t)n0) > ((int64_t)0))) - ((int)(((int64_t)n0) < ((int64_t)0))));
}

static int lb4_compare_power2(const int64_t *v) {
  if (((int)0)) {
    return ((int)v[0]);
  }
  int64_t n0 = ((int64_t)((int64_t)1));
  return (((int)(((int64_t)n0) > ((int64_t)0))) - ((int)(((int64_t)n0) < ((int64_t)0))));
}

int ln_compare_power2(const int64_t *x, const int64_t *v) {
  {
    int answer = ((int)lb0_compare_power2(v));
    if ((((int)answer) != ((int)0))) {
      return ((int)answer);
    }
  }
  if ((((int64_t)x[0]) < ((int64_t)x[1]))) {
    if ((((int64_t)x[0]) < ((int64_t)x[2]))) {
      {
        int answer = ((int)lb1_compare_power2(v));
        if ((((int)answer) != ((int)0))) {
          return ((int)answer);
        }
      }
      {
        int answer = ((int)lb2_compare_power2(v));
        if ((((int)answer) != ((int)0))) {
          return ((int)answer);
        }
      }
      if ((((int64_t)x[1]) < ((int64_t)x[2]))) {
        {
          int answer = ((int)lb3_compare_power2(v));
          if ((((int)answer) != ((int)0))) {
            return ((int)answer);
          }
        }
        return ((int)0);
      }
      {
        int answer = ((int)lb4_compare_power2(v));
        if ((((int)answer) != ((int)0))) {
          return ((int)answer);
        }
      }
      return ((int)0);
    }
  }
  if ((((int64_t)x[1]) < ((int64_t)x[2]))) {
    {
      int answer = ((int)lb3_compare_power2(v));
      if ((((int)answer) != ((int)0))) {
        return ((int)answer);
      }
    }
    if ((((int64_t)x[0]) < ((int64_t)x[2]))) {
      return ((int)0);
    }
    return ((int)0);
  }
  {
    int answer = ((int)lb4_compare_power2(v));
    if ((((int)answer) != ((int)0))) {
      return ((int)answer);
    }
  }
  if ((((int64_t)x[0]) < ((int64_t)x[1]))) {
    return ((int)0);
  }
  return ((int)0);
}

static int lb0_wdot2(const int64_t *v) {
  int64_t n0 = ((int64_t)v[3]);
  int64_t n1 = ((int64_t)v[0]);
  int64_t n2 = (((int64_t)n0) - ((int64_t)n1));
  int64_t n3 = ((int64_t)v[9]);
  int64_t n4 = ((int64_t)v[6]);
  int64_t n5 = (((int64_t)n3) - ((int64_t)n4));
  int64_t n6 = (((int64_t)n2) * ((int64_t)n5));
  int64_t n7 = ((int64_t)v[4]);
  int64_t n8 = ((int64_t)v[1]);
  int64_t n9 = (((int64_t)n7) - ((int64_t)n8));
  int64_t n10 = ((int64_t)v[10]);
  int64_t n11 = ((int64_t)v[7]);
  int64_t n12 = (((int64_t)n10) - ((int64_t)n11));
  int64_t n13 = (((int64_t)n9) * ((int64_t)n12));
  int64_t n14 = (((int64_t)n6) + ((int64_t)n13));
  return (((int)(((int64_t)n14) > ((int64_t)0))) - ((int)(((int64_t)n14) < ((int64_t)0))));
}

static int lb1_wdot2(const int64_t *v) {
  int64_t n0 = ((int64_t)v[7]);
  int64_t n1 = ((int64_t)v[10]);
  int64_t n2 = (-((int64_t)n1));
  int64_t n3 = (((int64_t)n0) + ((int64_t)n2));
  return (((int)(((int64_t)n3) > ((int64_t)0))) - ((int)(((int64_t)n3) < ((int64_t)0))));
}

static int lb2_wdot2(const int64_t *v) {
  int64_t n0 = ((int64_t)v[6]);
  int64_t n1 = ((int64_t)v[9]);
  int64_t n2 = (-((int64_t)n1));
  int64_t n3 = (((int64_t)n0) + ((int64_t)n2));
  return (((int)(((int64_t)n3) > ((int64_t)0))) - ((int)(((int64_t)n3) < ((int64_t)0))));
}

static int lb3_wdot2(const int64_t *v) {
  int64_t n0 = ((int64_t)v[7]);
  int64_t n1 = (-((int64_t)n0));
  int64_t n2 = ((int64_t)v[10]);
  int64_t n3 = (((int64_t)n1) + ((int64_t)n2));
  return (((int)(((int64_t)n3) > ((int64_t)0))) - ((int)(((int64_t)n3) < ((int64_t)0))));
}

static int lb4_wdot2(const int64_t *v) {
  int64_t n0 = ((int64_t)v[6]);
  int64_t n1 = (-((int64_t)n0));
  int64_t n2 = ((int64_t)v[9]);
  int64_t n3 = (((int64_t)n1) + ((int64_t)n2));
  return (((int)(((int64_t)n3) > ((int64_t)0))) - ((int)(((int64_t)n3) < ((int64_t)0))));
}

static int lb5_wdot2(const int64_t *v) {
  int64_t n0 = ((int64_t)v[1]);
  int64_t n1 = ((int64_t)v[4]);
  int64_t n2 = (-((int64_t)n1));
  int64_t n3 = (((int64_t)n0) + ((int64_t)n2));
  return (((int)(((int64_t)n3) > ((int64_t)0))) - ((int)(((int64_t)n3) < ((int64_t)0))));
}

static int lb6_wdot2(const int64_t *v) {
  if (((int)0)) {
    return ((int)v[0]);
  }
  int64_t n0 = ((int64_t)((int64_t)1));
  return (((int)(((int64_t)n0) > ((int64_t)0))) - ((int)(((int64_t)n0) < ((int64_t)0))));
}

static int lb7_wdot2(const int64_t *v) {
  int64_t n0 = ((int64_t)v[1]);
  int64_t n1 = (-((int64_t)n0));
  int64_t n2 = ((int64_t)v[4]);
  int64_t n3 = (((int64_t)n1) + ((int64_t)n2));
  return (((int)(((int64_t)n3) > ((int64_t)0))) - ((int)(((int64_t)n3) < ((int64_t)0))));
}

static int lb8_wdot2(const int64_t *v) {
  if (((int)0)) {
    return ((int)v[0]);
  }
  int64_t n0 = ((int64_t)(-((int64_t)1)));
  return (((int)(((int64_t)n0) > ((int64_t)0))) - ((int)(((int64_t)n0) < ((int64_t)0))));
}

static int lb9_wdot2(const int64_t *v) {
  if (((int)0)) {
    return ((int)v[0]);
  }
  int64_t n0 = ((int64_t)(-((int64_t)1)));
  return (((int)(((int64_t)n0) > ((int64_t)0))) - ((int)(((int64_t)n0) < ((int64_t)0))));
}

static int lb10_wdot2(const int64_t *v) {
  if (((int)0)) {
    return ((int)v[0]);
  }
  int64_t n0 = ((int64_t)((int64_t)1));
  return (((int)(((int64_t)n0) > ((int64_t)0))) - ((int)(((int64_t)n0) < ((int64_t)0))));
}

static int lb11_wdot2(const int64_t *v) {
  int64_t n0 = ((int64_t)v[0]);
  int64_t n1 = ((int64_t)v[3]);
  int64_t n2 = (-((int64_t)n1));
  int64_t n3 = (((int64_t)n0) + ((int64_t)n2));
  return (((int)(((int64_t)n3) > ((int64_t)0))) - ((int)(((int64_t)n3) < ((int64_t)0))));
}

static int lb12_wdot2(const int64_t *v) {
  int64_t n0 = ((int64_t)v[0]);
  int64_t n1 = (-((int64_t)n0));
  int64_t n2 = ((int64_t)v[3]);
  int64_t n3 = (((int64_t)n1) + ((int64_t)n2));
  return (((int)(((int64_t)n3) > ((int64_t)0))) - ((int)(((int64_t)n3) < ((int64_t)0))));
}

int ln_wdot2(const int64_t *x, const int64_t *v) {
  {
    int answer = ((int)lb0_wdot2(v));
    if ((((int)answer) != ((int)0))) {
      return ((int)answer);
    }
  }
  if ((((int64_t)x[0]) < ((int64_t)x[1]))) {
    if ((((int64_t)x[0]) < ((int64_t)x[2]))) {
      if ((((int64_t)x[0]) < ((int64_t)x[3]))) {
        {
          int answer = ((int)lb1_wdot2(v));
          if ((((int)answer) != ((int)0))) {
            return ((int)answer);
          }
        }
        {
          int answer = ((int)lb2_wdot2(v));
          if ((((int)answer) != ((int)0))) {
            return ((int)answer);
          }
        }
        if ((((int64_t)x[1]) < ((int64_t)x[2]))) {
          if ((((int64_t)x[1]) < ((int64_t)x[3]))) {
            {
              int answer = ((int)lb3_wdot2(v));
              if ((((int)answer) != ((int)0))) {
                return ((int)answer);
              }
            }
            {
              int answer = ((int)lb4_wdot2(v));
              if ((((int)answer) != ((int)0))) {
                return ((int)answer);
              }
            }
            if ((((int64_t)x[2]) < ((int64_t)x[3]))) {
              {
                int answer = ((int)lb5_wdot2(v));
                if ((((int)answer) != ((int)0))) {
                  return ((int)answer);
                }
              }
              {
                int answer = ((int)lb6_wdot2(v));
                if ((((int)answer) != ((int)0))) {
                  return ((int)answer);
                }
              }
              return ((int)0);
            }
            {
              int answer = ((int)lb7_wdot2(v));
              if ((((int)answer) != ((int)0))) {
                return ((int)answer);
              }
            }
            {
              int answer = ((int)lb8_wdot2(v));
              if ((((int)answer) != ((int)0))) {
                return ((int)answer);
              }
            }
            return ((int)0);
          }
        }
        if ((((int64_t)x[2]) < ((int64_t)x[3]))) {
          {
            int answer = ((int)lb5_wdot2(v));
            if ((((int)answer) != ((int)0))) {
              return ((int)answer);
            }
          }
          {
            int answer = ((int)lb6_wdot2(v));
            if ((((int)answer) != ((int)0))) {
              return ((int)answer);
            }
          }
          if ((((int64_t)x[1]) < ((int64_t)x[3]))) {
            return ((int)0);
          }
          return ((int)0);
        }
        {
          int answer = ((int)lb7_wdot2(v));
          if ((((int)answer) != ((int)0))) {
            return ((int)answer);
          }
        }
        {
          int answer = ((int)lb8_wdot2(v));
          if ((((int)answer) != ((int)0))) {
            return ((int)answer);
          }
        }
        if ((((int64_t)x[1]) < ((int64_t)x[2]))) {
          return ((int)0);
        }
        return ((int)0);
      }
    }
  }
  if ((((int64_t)x[1]) < ((int64_t)x[2]))) {
    if ((((int64_t)x[1]) < ((int64_t)x[3]))) {
      {
        int answer = ((int)lb3_wdot2(v));
        if ((((int)answer) != ((int)0))) {
          return ((int)answer);
        }
      }
      {
        int answer = ((int)lb4_wdot2(v));
        if ((((int)answer) != ((int)0))) {
          return ((int)answer);
        }
      }
      if ((((int64_t)x[0]) < ((int64_t)x[2]))) {
        if ((((int64_t)x[0]) < ((int64_t)x[3]))) {
          {
            int answer = ((int)lb1_wdot2(v));
            if ((((int)answer) != ((int)0))) {
              return ((int)answer);
            }
          }
          {
            int answer = ((int)lb2_wdot2(v));
            if ((((int)answer) != ((int)0))) {
              return ((int)answer);
            }
          }
          if ((((int64_t)x[2]) < ((int64_t)x[3]))) {
            {
              int answer = ((int)lb5_wdot2(v));
              if ((((int)answer) != ((int)0))) {
                return ((int)answer);
              }
            }
            {
              int answer = ((int)lb9_wdot2(v));
              if ((((int)answer) != ((int)0))) {
                return ((int)answer);
              }
            }
            return ((int)0);
          }
          {
            int answer = ((int)lb7_wdot2(v));
            if ((((int)answer) != ((int)0))) {
              return ((int)answer);
            }
          }
          {
            int answer = ((int)lb10_wdot2(v));
            if ((((int)answer) != ((int)0))) {
              return ((int)answer);
            }
          }
          return ((int)0);
        }
      }
      if ((((int64_t)x[2]) < ((int64_t)x[3]))) {
        {
          int answer = ((int)lb5_wdot2(v));
          if ((((int)answer) != ((int)0))) {
            return ((int)answer);
          }
        }
        {
          int answer = ((int)lb9_wdot2(v));
          if ((((int)answer) != ((int)0))) {
            return ((int)answer);
          }
        }
        if ((((int64_t)x[0]) < ((int64_t)x[3]))) {
          return ((int)0);
        }
        return ((int)0);
      }
      {
        int answer = ((int)lb7_wdot2(v));
        if ((((int)answer) != ((int)0))) {
          return ((int)answer);
        }
      }
      {
        int answer = ((int)lb10_wdot2(v));
        if ((((int)answer) != ((int)0))) {
          return ((int)answer);
        }
      }
      if ((((int64_t)x[0]) < ((int64_t)x[2]))) {
        return ((int)0);
      }
      return ((int)0);
    }
  }
  if ((((int64_t)x[2]) < ((int64_t)x[3]))) {
    {
      int answer = ((int)lb5_wdot2(v));
      if ((((int)answer) != ((int)0))) {
        return ((int)answer);
      }
    }
    {
      int answer = ((int)lb11_wdot2(v));
      if ((((int)answer) != ((int)0))) {
        return ((int)answer);
      }
    }
    if ((((int64_t)x[0]) < ((int64_t)x[1]))) {
      if ((((int64_t)x[0]) < ((int64_t)x[3]))) {
        {
          int answer = ((int)lb1_wdot2(v));
          if ((((int)answer) != ((int)0))) {
            return ((int)answer);
          }
        }
        {
          int answer = ((int)lb6_wdot2(v));
          if ((((int)answer) != ((int)0))) {
            return ((int)answer);
          }
        }
        if ((((int64_t)x[1]) < ((int64_t)x[3]))) {
          return ((int)0);
        }
        return ((int)0);
      }
    }
    if ((((int64_t)x[1]) < ((int64_t)x[3]))) {
      {
        int answer = ((int)lb3_wdot2(v));
        if ((((int)answer) != ((int)0))) {
          return ((int)answer);
        }
      }
      {
        int answer = ((int)lb9_wdot2(v));
        if ((((int)answer) != ((int)0))) {
          return ((int)answer);
        }
      }
      if ((((int64_t)x[0]) < ((int64_t)x[3]))) {
        return ((int)0);
      }
      return ((int)0);
    }
    {
      int answer = ((int)lb7_wdot2(v));
      if ((((int)answer) != ((int)0))) {
        return ((int)answer);
      }
    }
    {
      int answer = ((int)lb12_wdot2(v));
      if ((((int)answer) != ((int)0))) {
        return ((int)answer);
      }
    }
    if ((((int64_t)x[0]) < ((int64_t)x[1]))) {
      {
        int answer = ((int)lb1_wdot2(v));
        if ((((int)answer) != ((int)0))) {
          return ((int)answer);
        }
      }
      {
        int answer = ((int)lb6_wdot2(v));
        if ((((int)answer) != ((int)0))) {
          return ((int)answer);
        }
      }
      return ((int)0);
    }
    {
      int answer = ((int)lb3_wdot2(v));
      if ((((int)answer) != ((int)0))) {
        return ((int)answer);
      }
    }
    {
      int answer = ((int)lb9_wdot2(v));
      if ((((int)answer) != ((int)0))) {
        return ((int)answer);
      }
    }
    return ((int)0);
  }
  {
    int answer = ((int)lb7_wdot2(v));
    if ((((int)answer) != ((int)0))) {
      return ((int)answer);
    }
  }
  {
    int answer = ((int)lb12_wdot2(v));
    if ((((int)answer) != ((int)0))) {
      return ((int)answer);
    }
  }
  if ((((int64_t)x[0]) < ((int64_t)x[1]))) {
    if ((((int64_t)x[0]) < ((int64_t)x[2]))) {
      {
        int answer = ((int)lb1_wdot2(v));
        if ((((int)answer) != ((int)0))) {
          return ((int)answer);
        }
      }
      {
        int answer = ((int)lb8_wdot2(v));
        if ((((int)answer) != ((int)0))) {
          return ((int)answer);
        }
      }
      if ((((int64_t)x[1]) < ((int64_t)x[2]))) {
        return ((int)0);
      }
      return ((int)0);
    }
  }
  if ((((int64_t)x[1]) < ((int64_t)x[2]))) {
    {
      int answer = ((int)lb3_wdot2(v));
      if ((((int)answer) != ((int)0))) {
        return ((int)answer);
      }
    }
    {
      int answer = ((int)lb10_wdot2(v));
      if ((((int)answer) != ((int)0))) {
        return ((int)answer);
      }
    }
    if ((((int64_t)x[0]) < ((int64_t)x[2]))) {
      return ((int)0);
    }
    return ((int)0);
  }
  {
    int answer = ((int)lb5_wdot2(v));
    if ((((int)answer) != ((int)0))) {
      return ((int)answer);
    }
  }
  {
    int answer = ((int)lb11_wdot2(v));
    if ((((int)answer) != ((int)0))) {
      return ((int)answer);
    }
  }
  if ((((int64_t)x[0]) < ((int64_t)x[1]))) {
    {
      int answer = ((int)lb1_wdot2(v));
      if ((((int)answer) != ((int)0))) {
        return ((int)answer);
      }
    }
    {
      int answer = ((int)lb8_wdot2(v));
      if ((((int)answer) != ((int)0))) {
        return ((int)answer);
      }
    }
    return ((int)0);
  }
  {
    int answer = ((int)lb3_wdot2(v));
    if ((((int)answer) != ((int)0))) {
      return ((int)answer);
    }
  }
  {
    int answer = ((int)lb10_wdot2(v));
    if ((((int)answer) != ((int)0))) {
      return ((int)answer);
    }
  }
  return ((int)0);
}

static int lb0_wcompare_line2(const int64_t *v) {
  int64_t n0 = ((int64_t)v[3]);
  int64_t n1 = ((int64_t)v[0]);
  int64_t n2 = (((int64_t)n0) - ((int64_t)n1));
  int64_t n3 = ((int64_t)v[7]);
  int64_t n4 = ((int64_t)v[10]);
  int64_t n5 = (((int64_t)n3) - ((int64_t)n4));
  int64_t n6 = (((int64_t)n2) * ((int64_t)n5));
  int64_t n7 = ((int64_t)v[4]);
  int64_t n8 = ((int64_t)v[1]);
  int64_t n9 = (((int64_t)n7) - ((int64_t)n8));
  int64_t n10 = ((int64_t)v[6]);
  int64_t n11 = ((int64_t)v[9]);
  int64_t n12 = (((int64_t)n10) - ((int64_t)n11));
  int64_t n13 = (((int64_t)n9) * ((int64_t)n12));
  int64_t n14 = (((int64_t)n6) - ((int64_t)n13));
  return (((int)(((int64_t)n14) > ((int64_t)0))) - ((int)(((int64_t)n14) < ((int64_t)0))));
}

static int lb1_wcompare_line2(const int64_t *v) {
  int64_t n0 = ((int64_t)v[6]);
  int64_t n1 = ((int64_t)v[9]);
  int64_t n2 = (-((int64_t)n1));
  int64_t n3 = (((int64_t)n0) + ((int64_t)n2));
  return (((int)(((int64_t)n3) > ((int64_t)0))) - ((int)(((int64_t)n3) < ((int64_t)0))));
}

static int lb2_wcompare_line2(const int64_t *v) {
  int64_t n0 = ((int64_t)v[7]);
  int64_t n1 = (-((int64_t)n0));
  int64_t n2 = ((int64_t)v[10]);
  int64_t n3 = (((int64_t)n1) + ((int64_t)n2));
  return (((int)(((int64_t)n3) > ((int64_t)0))) - ((int)(((int64_t)n3) < ((int64_t)0))));
}

static int lb3_wcompare_line2(const int64_t *v) {
  int64_t n0 = ((int64_t)v[6]);
  int64_t n1 = (-((int64_t)n0));
  int64_t n2 = ((int64_t)v[9]);
  int64_t n3 = (((int64_t)n1) + ((int64_t)n2));
  return (((int)(((int64_t)n3) > ((int64_t)0))) - ((int)(((int64_t)n3) < ((int64_t)0))));
}

static int lb4_wcompare_line2(const int64_t *v) {
  int64_t n0 = ((int64_t)v[7]);
  int64_t n1 = ((int64_t)v[10]);
  int64_t n2 = (-((int64_t)n1));
  int64_t n3 = (((int64_t)n0) + ((int64_t)n2));
  return (((int)(((int64_t)n3) > ((int64_t)0))) - ((int)(((int64_t)n3) < ((int64_t)0))));
}

static int lb5_wcompare_line2(const int64_t *v) {
  int64_t n0 = ((int64_t)v[0]);
  int64_t n1 = (-((int64_t)n0));
  int64_t n2 = ((int64_t)v[3]);
  int64_t n3 = (((int64_t)n1) + ((int64_t)n2));
  return (((int)(((int64_t)n3) > ((int64_t)0))) - ((int)(((int64_t)n3) < ((int64_t)0))));
}

static int lb6_wcompare_line2(const int64_t *v) {
  if (((int)0)) {
    return ((int)v[0]);
  }
  int64_t n0 = ((int64_t)(-((int64_t)1)));
  return (((int)(((int64_t)n0) > ((int64_t)0))) - ((int)(((int64_t)n0) < ((int64_t)0))));
}

static int lb7_wcompare_line2(const int64_t *v) {
  int64_t n0 = ((int64_t)v[0]);
  int64_t n1 = ((int64_t)v[3]);
  int64_t n2 = (-((int64_t)n1));
  int64_t n3 = (((int64_t)n0) + ((int64_t)n2));
  return (((int)(((int64_t)n3) > ((int64_t)0))) - ((int)(((int64_t)n3) < ((int64_t)0))));
}

static int lb8_wcompare_line2(const int64_t *v) {
  if (((int)0)) {
    return ((int)v[0]);
  }
  int64_t n0 = ((int64_t)((int64_t)1));
  return (((int)(((int64_t)n0) > ((int64_t)0))) - ((int)(((int64_t)n0) < ((int64_t)0))));
}

static int lb9_wcompare_line2(const int64_t *v) {
  if (((int)0)) {
    return ((int)v[0]);
  }
  int64_t n0 = ((int64_t)((int64_t)1));
  return (((int)(((int64_t)n0) > ((int64_t)0))) - ((int)(((int64_t)n0) < ((int64_t)0))));
}

static int lb10_wcompare_line2(const int64_t *v) {
  if (((int)0)) {
    return ((int)v[0]);
  }
  int64_t n0 = ((int64_t)(-((int64_t)1)));
  return (((int)(((int64_t)n0) > ((int64_t)0))) - ((int)(((int64_t)n0) < ((int64_t)0))));
}

static int lb11_wcompare_line2(const int64_t *v) {
  int64_t n0 = ((int64_t)v[1]);
  int64_t n1 = ((int64_t)v[4]);
  int64_t n2 = (-((int64_t)n1));
  int64_t n3 = (((int64_t)n0) + ((int64_t)n2));
  return (((int)(((int64_t)n3) > ((int64_t)0))) - ((int)(((int64_t)n3) < ((int64_t)0))));
}

static int lb12_wcompare_line2(const int64_t *v) {
  if (((int)0)) {
    return ((int)v[0]);
  }
  int64_t n0 = ((int64_t)((int64_t)1));
  return (((int)(((int64_t)n0) > ((int64_t)0))) - ((int)(((int64_t)n0) < ((int64_t)0))));
}

static int lb13_wcompare_line2(const int64_t *v) {
  if (((int)0)) {
    return ((int)v[0]);
  }
  int64_t n0 = ((int64_t)(-((int64_t)1)));
  return (((int)(((int64_t)n0) > ((int64_t)0))) - ((int)(((int64_t)n0) < ((int64_t)0))));
}

static int lb14_wcompare_line2(const int64_t *v) {
  int64_t n0 = ((int64_t)v[1]);
  int64_t n1 = (-((int64_t)n0));
  int64_t n2 = ((int64_t)v[4]);
  int64_t n3 = (((int64_t)n1) + ((int64_t)n2));
  return (((int)(((int64_t)n3) > ((int64_t)0))) - ((int)(((int64_t)n3) < ((int64_t)0))));
}

static int lb15_wcompare_line2(const int64_t *v) {
  if (((int)0)) {
    return ((int)v[0]);
  }
  int64_t n0 = ((int64_t)(-((int64_t)1)));
  return (((int)(((int64_t)n0) > ((int64_t)0))) - ((int)(((int64_t)n0) < ((int64_t)0))));
}

static int lb16_wcompare_line2(const int64_t *v) {
  if (((int)0)) {
    return ((int)v[0]);
  }
  int64_t n0 = ((int64_t)((int64_t)1));
  return (((int)(((int64_t)n0) > ((int64_t)0))) - ((int)(((int64_t)n0) < ((int64_t)0))));
}

int ln_wcompare_line2(const int64_t *x, const int64_t *v) {
  {
    int answer = ((int)lb0_wcompare_line2(v));
    if ((((int)answer) != ((int)0))) {
      return ((int)answer);
    }
  }
  if ((((int64_t)x[0]) < ((int64_t)x[1]))) {
    if ((((int64_t)x[0]) < ((int64_t)x[2]))) {
      if ((((int64_t)x[0]) < ((int64_t)x[3]))) {
        {
          int answer = ((int)lb1_wcompare_line2(v));
          if ((((int)answer) != ((int)0))) {
            return ((int)answer);
          }
        }
        {
          int answer = ((int)lb2_wcompare_line2(v));
          if ((((int)answer) != ((int)0))) {
            return ((int)answer);
          }
        }
        if ((((int64_t)x[1]) < ((int64_t)x[2]))) {
          if ((((int64_t)x[1]) < ((int64_t)x[3]))) {
            {
              int answer = ((int)lb3_wcompare_line2(v));
              if ((((int)answer) != ((int)0))) {
                return ((int)answer);
              }
            }
            {
              int answer = ((int)lb4_wcompare_line2(v));
              if ((((int)answer) != ((int)0))) {
                return ((int)answer);
              }
            }
            if ((((int64_t)x[2]) < ((int64_t)x[3]))) {
              {
                int answer = ((int)lb5_wcompare_line2(v));
                if ((((int)answer) != ((int)0))) {
                  return ((int)answer);
                }
              }
              {
                int answer = ((int)lb6_wcompare_line2(v));
                if ((((int)answer) != ((int)0))) {
                  return ((int)answer);
                }
              }
              return ((int)0);
            }
            {
              int answer = ((int)lb7_wcompare_line2(v));
              if ((((int)answer) != ((int)0))) {
                return ((int)answer);
              }
            }
            {
              int answer = ((int)lb8_wcompare_line2(v));
              if ((((int)answer) != ((int)0))) {
                return ((int)answer);
              }
            }
            return ((int)0);
          }
        }
        if ((((int64_t)x[2]) < ((int64_t)x[3]))) {
          {
            int answer = ((int)lb5_wcompare_line2(v));
            if ((((int)answer) != ((int)0))) {
              return ((int)answer);
            }
          }
          {
            int answer = ((int)lb6_wcompare_line2(v));
            if ((((int)answer) != ((int)0))) {
              return ((int)answer);
            }
          }
          if ((((int64_t)x[1]) < ((int64_t)x[3]))) {
            return ((int)0);
          }
          return ((int)0);
        }
        {
          int answer = ((int)lb7_wcompare_line2(v));
          if ((((int)answer) != ((int)0))) {
            return ((int)answer);
          }
        }
        {
          int answer = ((int)lb8_wcompare_line2(v));
          if ((((int)answer) != ((int)0))) {
            return ((int)answer);
          }
        }
        if ((((int64_t)x[1]) < ((int64_t)x[2]))) {
          return ((int)0);
        }
        return ((int)0);
      }
    }
  }
  if ((((int64_t)x[1]) < ((int64_t)x[2]))) {
    if ((((int64_t)x[1]) < ((int64_t)x[3]))) {
      {
        int answer = ((int)lb3_wcompare_line2(v));
        if ((((int)answer) != ((int)0))) {
          return ((int)answer);
        }
      }
      {
        int answer = ((int)lb4_wcompare_line2(v));
        if ((((int)answer) != ((int)0))) {
          return ((int)answer);
        }
      }
      if ((((int64_t)x[0]) < ((int64_t)x[2]))) {
        if ((((int64_t)x[0]) < ((int64_t)x[3]))) {
          {
            int answer = ((int)lb1_wcompare_line2(v));
            if ((((int)answer) != ((int)0))) {
              return ((int)answer);
            }
          }
          {
            int answer = ((int)lb2_wcompare_line2(v));
            if ((((int)answer) != ((int)0))) {
              return ((int)answer);
            }
          }
          if ((((int64_t)x[2]) < ((int64_t)x[3]))) {
            {
              int answer = ((int)lb5_wcompare_line2(v));
              if ((((int)answer) != ((int)0))) {
                return ((int)answer);
              }
            }
            {
              int answer = ((int)lb9_wcompare_line2(v));
              if ((((int)answer) != ((int)0))) {
                return ((int)answer);
              }
            }
            return ((int)0);
          }
          {
            int answer = ((int)lb7_wcompare_line2(v));
            if ((((int)answer) != ((int)0))) {
              return ((int)answer);
            }
          }
          {
            int answer = ((int)lb10_wcompare_line2(v));
            if ((((int)answer) != ((int)0))) {
              return ((int)answer);
            }
          }
          return ((int)0);
        }
      }
      if ((((int64_t)x[2]) < ((int64_t)x[3]))) {
        {
          int answer = ((int)lb5_wcompare_line2(v));
          if ((((int)answer) != ((int)0))) {
            return ((int)answer);
          }
        }
        {
          int answer = ((int)lb9_wcompare_line2(v));
          if ((((int)answer) != ((int)0))) {
            return ((int)answer);
          }
        }
        if ((((int64_t)x[0]) < ((int64_t)x[3]))) {
          return ((int)0);
        }
        return ((int)0);
      }
      {
        int answer = ((int)lb7_wcompare_line2(v));
        if ((((int)answer) != ((int)0))) {
          return ((int)answer);
        }
      }
      {
        int answer = ((int)lb10_wcompare_line2(v));
        if ((((int)answer) != ((int)0))) {
          return ((int)answer);
        }
      }
      if ((((int64_t)x[0]) < ((int64_t)x[2]))) {
        return ((int)0);
      }
      return ((int)0);
    }
  }
  if ((((int64_t)x[2]) < ((int64_t)x[3]))) {
    {
      int answer = ((int)lb5_wcompare_line2(v));
      if ((((int)answer) != ((int)0))) {
        return ((int)answer);
      }
    }
    {
      int answer = ((int)lb11_wcompare_line2(v));
      if ((((int)answer) != ((int)0))) {
        return ((int)answer);
      }
    }
    if ((((int64_t)x[0]) < ((int64_t)x[1]))) {
      if ((((int64_t)x[0]) < ((int64_t)x[3]))) {
        {
          int answer = ((int)lb1_wcompare_line2(v));
          if ((((int)answer) != ((int)0))) {
            return ((int)answer);
          }
        }
        {
          int answer = ((int)lb12_wcompare_line2(v));
          if ((((int)answer) != ((int)0))) {
            return ((int)answer);
          }
        }
        if ((((int64_t)x[1]) < ((int64_t)x[3]))) {
          return ((int)0);
        }
        return ((int)0);
      }
    }
    if ((((int64_t)x[1]) < ((int64_t)x[3]))) {
      {
        int answer = ((int)lb3_wcompare_line2(v));
        if ((((int)answer) != ((int)0))) {
          return ((int)answer);
        }
      }
      {
        int answer = ((int)lb13_wcompare_line2(v));
        if ((((int)answer) != ((int)0))) {
          return ((int)answer);
        }
      }
      if ((((int64_t)x[0]) < ((int64_t)x[3]))) {
        return ((int)0);
      }
      return ((int)0);
    }
    {
      int answer = ((int)lb7_wcompare_line2(v));
      if ((((int)answer) != ((int)0))) {
        return ((int)answer);
      }
    }
    {
      int answer = ((int)lb14_wcompare_line2(v));
      if ((((int)answer) != ((int)0))) {
        return ((int)answer);
      }
    }
    if ((((int64_t)x[0]) < ((int64_t)x[1]))) {
      {
        int answer = ((int)lb1_wcompare_line2(v));
        if ((((int)answer) != ((int)0))) {
          return ((int)answer);
        }
      }
      {
        int answer = ((int)lb12_wcompare_line2(v));
        if ((((int)answer) != ((int)0))) {
          return ((int)answer);
        }
      }
      return ((int)0);
    }
    {
      int answer = ((int)lb3_wcompare_line2(v));
      if ((((int)answer) != ((int)0))) {
        return ((int)answer);
      }
    }
    {
      int answer = ((int)lb13_wcompare_line2(v));
      if ((((int)answer) != ((int)0))) {
        return ((int)answer);
      }
    }
    return ((int)0);
  }
  {
    int answer = ((int)lb7_wcompare_line2(v));
    if ((((int)answer) != ((int)0))) {
      return ((int)answer);
    }
  }
  {
    int answer = ((int)lb14_wcompare_line2(v));
    if ((((int)answer) != ((int)0))) {
      return ((int)answer);
    }
  }
  if ((((int64_t)x[0]) < ((int64_t)x[1]))) {
    if ((((int64_t)x[0]) < ((int64_t)x[2]))) {
      {
        int answer = ((int)lb1_wcompare_line2(v));
        if ((((int)answer) != ((int)0))) {
          return ((int)answer);
        }
      }
      {
        int answer = ((int)lb15_wcompare_line2(v));
        if ((((int)answer) != ((int)0))) {
          return ((int)answer);
        }
      }
      if ((((int64_t)x[1]) < ((int64_t)x[2]))) {
        return ((int)0);
      }
      return ((int)0);
    }
  }
  if ((((int64_t)x[1]) < ((int64_t)x[2]))) {
    {
      int answer = ((int)lb3_wcompare_line2(v));
      if ((((int)answer) != ((int)0))) {
        return ((int)answer);
      }
    }
    {
      int answer = ((int)lb16_wcompare_line2(v));
      if ((((int)answer) != ((int)0))) {
        return ((int)answer);
      }
    }
    if ((((int64_t)x[0]) < ((int64_t)x[2]))) {
      return ((int)0);
    }
    return ((int)0);
  }
  {
    int answer = ((int)lb5_wcompare_line2(v));
    if ((((int)answer) != ((int)0))) {
      return ((int)answer);
    }
  }
  {
    int answer = ((int)lb11_wcompare_line2(v));
    if ((((int)answer) != ((int)0))) {
      return ((int)answer);
    }
  }
  if ((((int64_t)x[0]) < ((int64_t)x[1]))) {
    {
      int answer = ((int)lb1_wcompare_line2(v));
      if ((((int)answer) != ((int)0))) {
        return ((int)answer);
      }
    }
    {
      int answer = ((int)lb15_wcompare_line2(v));
      if ((((int)answer) != ((int)0))) {
        return ((int)answer);
      }
    }
    return ((int)0);
  }
  {
    int answer = ((int)lb3_wcompare_line2(v));
    if ((((int)answer) != ((int)0))) {
      return ((int)answer);
    }
  }
  {
    int answer = ((int)lb16_wcompare_line2(v));
    if ((((int)answer) != ((int)0))) {
      return ((int)answer);
    }
  }
  return ((int)0);
}
