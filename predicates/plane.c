#include <stdint.h>

static int lb0_orient2(const int64_t *v) {
  int64_t n0 = ((int64_t)v[0]);
  int64_t n1 = ((int64_t)v[4]);
  int64_t n2 = (((int64_t)n0) - ((int64_t)n1));
  int64_t n3 = ((int64_t)v[3]);
  int64_t n4 = ((int64_t)v[5]);
  int64_t n5 = (((int64_t)n3) - ((int64_t)n4));
  int64_t n6 = (((int64_t)n2) * ((int64_t)n5));
  int64_t n7 = ((int64_t)v[1]);
  int64_t n8 = ((int64_t)v[5]);
  int64_t n9 = (((int64_t)n7) - ((int64_t)n8));
  int64_t n10 = ((int64_t)v[2]);
  int64_t n11 = ((int64_t)v[4]);
  int64_t n12 = (((int64_t)n10) - ((int64_t)n11));
  int64_t n13 = (((int64_t)n9) * ((int64_t)n12));
  int64_t n14 = (((int64_t)n6) - ((int64_t)n13));
  return (((int)(((int64_t)n14) > ((int64_t)0))) - ((int)(((int64_t)n14) < ((int64_t)0))));
}

static int lb1_orient2(const int64_t *v) {
  int64_t n0 = ((int64_t)v[2]);
  int64_t n1 = (-((int64_t)n0));
  int64_t n2 = ((int64_t)v[4]);
  int64_t n3 = (((int64_t)n1) + ((int64_t)n2));
  return (((int)(((int64_t)n3) > ((int64_t)0))) - ((int)(((int64_t)n3) < ((int64_t)0))));
}

static int lb2_orient2(const int64_t *v) {
  int64_t n0 = ((int64_t)v[3]);
  int64_t n1 = ((int64_t)v[5]);
  int64_t n2 = (-((int64_t)n1));
  int64_t n3 = (((int64_t)n0) + ((int64_t)n2));
  return (((int)(((int64_t)n3) > ((int64_t)0))) - ((int)(((int64_t)n3) < ((int64_t)0))));
}

static int lb3_orient2(const int64_t *v) {
  int64_t n0 = ((int64_t)v[0]);
  int64_t n1 = ((int64_t)v[4]);
  int64_t n2 = (-((int64_t)n1));
  int64_t n3 = (((int64_t)n0) + ((int64_t)n2));
  return (((int)(((int64_t)n3) > ((int64_t)0))) - ((int)(((int64_t)n3) < ((int64_t)0))));
}

static int lb4_orient2(const int64_t *v) {
  if (((int)0)) {
    return ((int)v[0]);
  }
  int64_t n0 = ((int64_t)((int64_t)1));
  return (((int)(((int64_t)n0) > ((int64_t)0))) - ((int)(((int64_t)n0) < ((int64_t)0))));
}

int la_orient2(const int64_t *x, const int64_t *v) {
  {
    int answer = ((int)lb0_orient2(v));
    if ((((int)answer) != ((int)0))) {
      return ((int)answer);
    }
  }
  {
    int answer = ((int)lb1_orient2(v));
    if ((((int)answer) != ((int)0))) {
      return ((int)answer);
    }
  }
  {
    int answer = ((int)lb2_orient2(v));
    if ((((int)answer) != ((int)0))) {
      return ((int)answer);
    }
  }
  {
    int answer = ((int)lb3_orient2(v));
    if ((((int)answer) != ((int)0))) {
      return ((int)answer);
    }
  }
  {
    int answer = ((int)lb4_orient2(v));
    if ((((int)answer) != ((int)0))) {
      return ((int)answer);
    }
  }
  if ((((int64_t)x[0]) < ((int64_t)x[1]))) {
    if ((((int64_t)x[0]) < ((int64_t)x[2]))) {
      if ((((int64_t)x[1]) < ((int64_t)x[2]))) {
        return ((int)0);
      }
      return ((int)0);
    }
  }
  if ((((int64_t)x[1]) < ((int64_t)x[2]))) {
    if ((((int64_t)x[0]) < ((int64_t)x[2]))) {
      return ((int)0);
    }
    return ((int)0);
  }
  if ((((int64_t)x[0]) < ((int64_t)x[1]))) {
    return ((int)0);
  }
  return ((int)0);
}

static int lb0_incircle(const int64_t *v) {
  int64_t n0 = ((int64_t)v[0]);
  int64_t n1 = ((int64_t)v[6]);
  int64_t n2 = (((int64_t)n0) - ((int64_t)n1));
  int64_t n3 = ((int64_t)n2);
  int64_t n4 = ((int64_t)v[1]);
  int64_t n5 = ((int64_t)v[7]);
  int64_t n6 = (((int64_t)n4) - ((int64_t)n5));
  int64_t n7 = ((int64_t)n6);
  int64_t n8 = ((int64_t)v[2]);
  int64_t n9 = ((int64_t)v[6]);
  int64_t n10 = (((int64_t)n8) - ((int64_t)n9));
  int64_t n11 = ((int64_t)n10);
  int64_t n12 = ((int64_t)v[3]);
  int64_t n13 = ((int64_t)v[7]);
  int64_t n14 = (((int64_t)n12) - ((int64_t)n13));
  int64_t n15 = ((int64_t)n14);
  int64_t n16 = ((int64_t)v[4]);
  int64_t n17 = ((int64_t)v[6]);
  int64_t n18 = (((int64_t)n16) - ((int64_t)n17));
  int64_t n19 = ((int64_t)n18);
  int64_t n20 = ((int64_t)v[5]);
  int64_t n21 = ((int64_t)v[7]);
  int64_t n22 = (((int64_t)n20) - ((int64_t)n21));
  int64_t n23 = ((int64_t)n22);
  int64_t n24 = ((int64_t)n3);
  int64_t n25 = ((int64_t)n24);
  int64_t n26 = ((int64_t)n25);
  int64_t n27 = ((int64_t)n25);
  int64_t n28 = (((int64_t)n26) * ((int64_t)n27));
  int64_t n29 = ((int64_t)n7);
  int64_t n30 = ((int64_t)n29);
  int64_t n31 = ((int64_t)n30);
  int64_t n32 = ((int64_t)n30);
  int64_t n33 = (((int64_t)n31) * ((int64_t)n32));
  int64_t n34 = (((int64_t)n28) + ((int64_t)n33));
  int64_t n35 = ((int64_t)n34);
  int64_t n36 = ((int64_t)n11);
  int64_t n37 = ((int64_t)n36);
  int64_t n38 = ((int64_t)n37);
  int64_t n39 = ((int64_t)n37);
  int64_t n40 = (((int64_t)n38) * ((int64_t)n39));
  int64_t n41 = ((int64_t)n15);
  int64_t n42 = ((int64_t)n41);
  int64_t n43 = ((int64_t)n42);
  int64_t n44 = ((int64_t)n42);
  int64_t n45 = (((int64_t)n43) * ((int64_t)n44));
  int64_t n46 = (((int64_t)n40) + ((int64_t)n45));
  int64_t n47 = ((int64_t)n46);
  int64_t n48 = ((int64_t)n19);
  int64_t n49 = ((int64_t)n48);
  int64_t n50 = ((int64_t)n49);
  int64_t n51 = ((int64_t)n49);
  int64_t n52 = (((int64_t)n50) * ((int64_t)n51));
  int64_t n53 = ((int64_t)n23);
  int64_t n54 = ((int64_t)n53);
  int64_t n55 = ((int64_t)n54);
  int64_t n56 = ((int64_t)n54);
  int64_t n57 = (((int64_t)n55) * ((int64_t)n56));
  int64_t n58 = (((int64_t)n52) + ((int64_t)n57));
  int64_t n59 = ((int64_t)n58);
  int64_t n60 = ((int64_t)n3);
  int64_t n61 = ((int64_t)n15);
  int64_t n62 = ((int64_t)n59);
  __int128 n63 = (((__int128)n61) * ((__int128)n62));
  int64_t n64 = ((int64_t)n47);
  int64_t n65 = ((int64_t)n23);
  __int128 n66 = (((__int128)n64) * ((__int128)n65));
  __int128 n67 = (((__int128)n63) - ((__int128)n66));
  __int128 n68 = (((__int128)n60) * ((__int128)n67));
  int64_t n69 = ((int64_t)n7);
  int64_t n70 = ((int64_t)n11);
  int64_t n71 = ((int64_t)n59);
  __int128 n72 = (((__int128)n70) * ((__int128)n71));
  int64_t n73 = ((int64_t)n47);
  int64_t n74 = ((int64_t)n19);
  __int128 n75 = (((__int128)n73) * ((__int128)n74));
  __int128 n76 = (((__int128)n72) - ((__int128)n75));
  __int128 n77 = (((__int128)n69) * ((__int128)n76));
  __int128 n78 = (((__int128)n68) - ((__int128)n77));
  int64_t n79 = ((int64_t)n35);
  int64_t n80 = ((int64_t)n11);
  int64_t n81 = ((int64_t)n23);
  int64_t n82 = (((int64_t)n80) * ((int64_t)n81));
  int64_t n83 = ((int64_t)n15);
  int64_t n84 = ((int64_t)n19);
  int64_t n85 = (((int64_t)n83) * ((int64_t)n84));
  int64_t n86 = (((int64_t)n82) - ((int64_t)n85));
  __int128 n87 = (((__int128)n79) * ((__int128)n86));
  __int128 n88 = (((__int128)n78) + ((__int128)n87));
  return (((int)(((__int128)n88) > ((__int128)0))) - ((int)(((__int128)n88) < ((__int128)0))));
}

static int lb1_incircle(const int64_t *v) {
  int64_t n0 = ((int64_t)v[1]);
  int64_t n1 = ((int64_t)v[2]);
  int64_t n2 = ((int64_t)v[5]);
  int64_t n3 = ((int64_t)((int64_t)2));
  int64_t n4 = (((int64_t)n2) * ((int64_t)n3));
  int64_t n5 = ((int64_t)v[7]);
  int64_t n6 = ((int64_t)(-((int64_t)2)));
  int64_t n7 = (((int64_t)n5) * ((int64_t)n6));
  int64_t n8 = (((int64_t)n4) + ((int64_t)n7));
  int64_t n9 = (((int64_t)n1) * ((int64_t)n8));
  int64_t n10 = ((int64_t)v[3]);
  int64_t n11 = ((int64_t)v[4]);
  int64_t n12 = ((int64_t)(-((int64_t)2)));
  int64_t n13 = (((int64_t)n11) * ((int64_t)n12));
  int64_t n14 = ((int64_t)v[6]);
  int64_t n15 = ((int64_t)((int64_t)2));
  int64_t n16 = (((int64_t)n14) * ((int64_t)n15));
  int64_t n17 = (((int64_t)n13) + ((int64_t)n16));
  int64_t n18 = (((int64_t)n10) * ((int64_t)n17));
  int64_t n19 = ((int64_t)v[4]);
  int64_t n20 = ((int64_t)v[7]);
  int64_t n21 = ((int64_t)((int64_t)2));
  int64_t n22 = (((int64_t)n20) * ((int64_t)n21));
  int64_t n23 = (((int64_t)n19) * ((int64_t)n22));
  int64_t n24 = ((int64_t)v[5]);
  int64_t n25 = ((int64_t)v[6]);
  int64_t n26 = ((int64_t)(-((int64_t)2)));
  int64_t n27 = (((int64_t)n25) * ((int64_t)n26));
  int64_t n28 = (((int64_t)n24) * ((int64_t)n27));
  int64_t n29 = (((int64_t)n23) + ((int64_t)n28));
  int64_t n30 = (((int64_t)n18) + ((int64_t)n29));
  int64_t n31 = (((int64_t)n9) + ((int64_t)n30));
  __int128 n32 = (((__int128)n0) * ((__int128)n31));
  int64_t n33 = ((int64_t)v[2]);
  int64_t n34 = ((int64_t)v[2]);
  int64_t n35 = ((int64_t)v[4]);
  int64_t n36 = ((int64_t)v[6]);
  int64_t n37 = (-((int64_t)n36));
  int64_t n38 = ((int64_t)n37);
  int64_t n39 = ((int64_t)n38);
  int64_t n40 = (((int64_t)n35) + ((int64_t)n39));
  int64_t n41 = ((int64_t)n40);
  int64_t n42 = ((int64_t)n41);
  int64_t n43 = (((int64_t)n34) * ((int64_t)n42));
  int64_t n44 = ((int64_t)v[4]);
  int64_t n45 = ((int64_t)v[4]);
  int64_t n46 = (-((int64_t)n45));
  int64_t n47 = (((int64_t)n44) * ((int64_t)n46));
  int64_t n48 = ((int64_t)v[5]);
  int64_t n49 = ((int64_t)v[5]);
  int64_t n50 = (-((int64_t)n49));
  int64_t n51 = (((int64_t)n48) * ((int64_t)n50));
  int64_t n52 = ((int64_t)v[6]);
  int64_t n53 = ((int64_t)v[6]);
  int64_t n54 = (((int64_t)n52) * ((int64_t)n53));
  int64_t n55 = ((int64_t)v[7]);
  int64_t n56 = ((int64_t)v[7]);
  int64_t n57 = (((int64_t)n55) * ((int64_t)n56));
  int64_t n58 = (((int64_t)n54) + ((int64_t)n57));
  int64_t n59 = (((int64_t)n51) + ((int64_t)n58));
  int64_t n60 = (((int64_t)n47) + ((int64_t)n59));
  int64_t n61 = (((int64_t)n43) + ((int64_t)n60));
  __int128 n62 = (((__int128)n33) * ((__int128)n61));
  int64_t n63 = ((int64_t)v[3]);
  int64_t n64 = ((int64_t)v[3]);
  int64_t n65 = ((int64_t)n41);
  int64_t n66 = (((int64_t)n64) * ((int64_t)n65));
  __int128 n67 = (((__int128)n63) * ((__int128)n66));
  int64_t n68 = ((int64_t)v[4]);
  int64_t n69 = ((int64_t)v[4]);
  int64_t n70 = ((int64_t)v[6]);
  int64_t n71 = (((int64_t)n69) * ((int64_t)n70));
  int64_t n72 = ((int64_t)v[6]);
  int64_t n73 = ((int64_t)n38);
  int64_t n74 = (((int64_t)n72) * ((int64_t)n73));
  int64_t n75 = ((int64_t)v[7]);
  int64_t n76 = ((int64_t)v[7]);
  int64_t n77 = (-((int64_t)n76));
  int64_t n78 = (((int64_t)n75) * ((int64_t)n77));
  int64_t n79 = (((int64_t)n74) + ((int64_t)n78));
  int64_t n80 = (((int64_t)n71) + ((int64_t)n79));
  __int128 n81 = (((__int128)n68) * ((__int128)n80));
  int64_t n82 = ((int64_t)v[5]);
  int64_t n83 = ((int64_t)v[5]);
  int64_t n84 = ((int64_t)v[6]);
  int64_t n85 = (((int64_t)n83) * ((int64_t)n84));
  __int128 n86 = (((__int128)n82) * ((__int128)n85));
  __int128 n87 = (((__int128)n81) + ((__int128)n86));
  __int128 n88 = (((__int128)n67) + ((__int128)n87));
  __int128 n89 = (((__int128)n62) + ((__int128)n88));
  __int128 n90 = (((__int128)n32) + ((__int128)n89));
  return (((int)(((__int128)n90) > ((__int128)0))) - ((int)(((__int128)n90) < ((__int128)0))));
}

static int lb2_incircle(const int64_t *v) {
  int64_t n0 = ((int64_t)v[2]);
  int64_t n1 = ((int64_t)v[5]);
  int64_t n2 = ((int64_t)v[7]);
  int64_t n3 = (-((int64_t)n2));
  int64_t n4 = (((int64_t)n1) + ((int64_t)n3));
  int64_t n5 = (((int64_t)n0) * ((int64_t)n4));
  int64_t n6 = ((int64_t)v[3]);
  int64_t n7 = ((int64_t)v[4]);
  int64_t n8 = (-((int64_t)n7));
  int64_t n9 = ((int64_t)v[6]);
  int64_t n10 = (((int64_t)n8) + ((int64_t)n9));
  int64_t n11 = (((int64_t)n6) * ((int64_t)n10));
  int64_t n12 = ((int64_t)v[4]);
  int64_t n13 = ((int64_t)v[7]);
  int64_t n14 = (((int64_t)n12) * ((int64_t)n13));
  int64_t n15 = ((int64_t)v[5]);
  int64_t n16 = ((int64_t)v[6]);
  int64_t n17 = (-((int64_t)n16));
  int64_t n18 = (((int64_t)n15) * ((int64_t)n17));
  int64_t n19 = (((int64_t)n14) + ((int64_t)n18));
  int64_t n20 = (((int64_t)n11) + ((int64_t)n19));
  int64_t n21 = (((int64_t)n5) + ((int64_t)n20));
  return (((int)(((int64_t)n21) > ((int64_t)0))) - ((int)(((int64_t)n21) < ((int64_t)0))));
}

static int lb3_incircle(const int64_t *v) {
  int64_t n0 = ((int64_t)v[0]);
  int64_t n1 = ((int64_t)v[2]);
  int64_t n2 = ((int64_t)v[5]);
  int64_t n3 = ((int64_t)((int64_t)2));
  int64_t n4 = (((int64_t)n2) * ((int64_t)n3));
  int64_t n5 = ((int64_t)v[7]);
  int64_t n6 = ((int64_t)(-((int64_t)2)));
  int64_t n7 = (((int64_t)n5) * ((int64_t)n6));
  int64_t n8 = (((int64_t)n4) + ((int64_t)n7));
  int64_t n9 = (((int64_t)n1) * ((int64_t)n8));
  int64_t n10 = ((int64_t)v[3]);
  int64_t n11 = ((int64_t)v[4]);
  int64_t n12 = ((int64_t)(-((int64_t)2)));
  int64_t n13 = (((int64_t)n11) * ((int64_t)n12));
  int64_t n14 = ((int64_t)v[6]);
  int64_t n15 = ((int64_t)((int64_t)2));
  int64_t n16 = (((int64_t)n14) * ((int64_t)n15));
  int64_t n17 = (((int64_t)n13) + ((int64_t)n16));
  int64_t n18 = (((int64_t)n10) * ((int64_t)n17));
  int64_t n19 = ((int64_t)v[4]);
  int64_t n20 = ((int64_t)v[7]);
  int64_t n21 = ((int64_t)((int64_t)2));
  int64_t n22 = (((int64_t)n20) * ((int64_t)n21));
  int64_t n23 = (((int64_t)n19) * ((int64_t)n22));
  int64_t n24 = ((int64_t)v[5]);
  int64_t n25 = ((int64_t)v[6]);
  int64_t n26 = ((int64_t)(-((int64_t)2)));
  int64_t n27 = (((int64_t)n25) * ((int64_t)n26));
  int64_t n28 = (((int64_t)n24) * ((int64_t)n27));
  int64_t n29 = (((int64_t)n23) + ((int64_t)n28));
  int64_t n30 = (((int64_t)n18) + ((int64_t)n29));
  int64_t n31 = (((int64_t)n9) + ((int64_t)n30));
  __int128 n32 = (((__int128)n0) * ((__int128)n31));
  int64_t n33 = ((int64_t)v[2]);
  int64_t n34 = ((int64_t)v[2]);
  int64_t n35 = ((int64_t)v[5]);
  int64_t n36 = (-((int64_t)n35));
  int64_t n37 = ((int64_t)v[7]);
  int64_t n38 = (((int64_t)n36) + ((int64_t)n37));
  int64_t n39 = ((int64_t)n38);
  int64_t n40 = ((int64_t)n39);
  int64_t n41 = (((int64_t)n34) * ((int64_t)n40));
  __int128 n42 = (((__int128)n33) * ((__int128)n41));
  int64_t n43 = ((int64_t)v[3]);
  int64_t n44 = ((int64_t)v[3]);
  int64_t n45 = ((int64_t)n39);
  int64_t n46 = (((int64_t)n44) * ((int64_t)n45));
  int64_t n47 = ((int64_t)v[4]);
  int64_t n48 = ((int64_t)v[4]);
  int64_t n49 = (((int64_t)n47) * ((int64_t)n48));
  int64_t n50 = ((int64_t)v[5]);
  int64_t n51 = ((int64_t)v[5]);
  int64_t n52 = (((int64_t)n50) * ((int64_t)n51));
  int64_t n53 = ((int64_t)v[6]);
  int64_t n54 = ((int64_t)v[6]);
  int64_t n55 = (-((int64_t)n54));
  int64_t n56 = (((int64_t)n53) * ((int64_t)n55));
  int64_t n57 = ((int64_t)v[7]);
  int64_t n58 = ((int64_t)v[7]);
  int64_t n59 = (-((int64_t)n58));
  int64_t n60 = ((int64_t)n59);
  int64_t n61 = ((int64_t)n60);
  int64_t n62 = (((int64_t)n57) * ((int64_t)n61));
  int64_t n63 = (((int64_t)n56) + ((int64_t)n62));
  int64_t n64 = (((int64_t)n52) + ((int64_t)n63));
  int64_t n65 = (((int64_t)n49) + ((int64_t)n64));
  int64_t n66 = (((int64_t)n46) + ((int64_t)n65));
  __int128 n67 = (((__int128)n43) * ((__int128)n66));
  int64_t n68 = ((int64_t)v[4]);
  int64_t n69 = ((int64_t)v[4]);
  int64_t n70 = ((int64_t)n60);
  int64_t n71 = (((int64_t)n69) * ((int64_t)n70));
  __int128 n72 = (((__int128)n68) * ((__int128)n71));
  int64_t n73 = ((int64_t)v[5]);
  int64_t n74 = ((int64_t)v[5]);
  int64_t n75 = ((int64_t)n60);
  int64_t n76 = (((int64_t)n74) * ((int64_t)n75));
  int64_t n77 = ((int64_t)v[6]);
  int64_t n78 = ((int64_t)v[6]);
  int64_t n79 = (((int64_t)n77) * ((int64_t)n78));
  int64_t n80 = ((int64_t)v[7]);
  int64_t n81 = ((int64_t)v[7]);
  int64_t n82 = (((int64_t)n80) * ((int64_t)n81));
  int64_t n83 = (((int64_t)n79) + ((int64_t)n82));
  int64_t n84 = (((int64_t)n76) + ((int64_t)n83));
  __int128 n85 = (((__int128)n73) * ((__int128)n84));
  __int128 n86 = (((__int128)n72) + ((__int128)n85));
  __int128 n87 = (((__int128)n67) + ((__int128)n86));
  __int128 n88 = (((__int128)n42) + ((__int128)n87));
  __int128 n89 = (((__int128)n32) + ((__int128)n88));
  return (((int)(((__int128)n89) > ((__int128)0))) - ((int)(((__int128)n89) < ((__int128)0))));
}

static int lb4_incircle(const int64_t *v) {
  int64_t n0 = ((int64_t)v[2]);
  int64_t n1 = ((int64_t)v[5]);
  int64_t n2 = ((int64_t)v[7]);
  int64_t n3 = (-((int64_t)n2));
  int64_t n4 = (((int64_t)n1) + ((int64_t)n3));
  int64_t n5 = (((int64_t)n0) * ((int64_t)n4));
  int64_t n6 = ((int64_t)v[3]);
  int64_t n7 = ((int64_t)v[4]);
  int64_t n8 = (-((int64_t)n7));
  int64_t n9 = ((int64_t)v[6]);
  int64_t n10 = (((int64_t)n8) + ((int64_t)n9));
  int64_t n11 = (((int64_t)n6) * ((int64_t)n10));
  int64_t n12 = ((int64_t)v[4]);
  int64_t n13 = ((int64_t)v[7]);
  int64_t n14 = (((int64_t)n12) * ((int64_t)n13));
  int64_t n15 = ((int64_t)v[5]);
  int64_t n16 = ((int64_t)v[6]);
  int64_t n17 = (-((int64_t)n16));
  int64_t n18 = (((int64_t)n15) * ((int64_t)n17));
  int64_t n19 = (((int64_t)n14) + ((int64_t)n18));
  int64_t n20 = (((int64_t)n11) + ((int64_t)n19));
  int64_t n21 = (((int64_t)n5) + ((int64_t)n20));
  return (((int)(((int64_t)n21) > ((int64_t)0))) - ((int)(((int64_t)n21) < ((int64_t)0))));
}

static int lb5_incircle(const int64_t *v) {
  int64_t n0 = ((int64_t)v[0]);
  int64_t n1 = ((int64_t)v[0]);
  int64_t n2 = ((int64_t)v[4]);
  int64_t n3 = (-((int64_t)n2));
  int64_t n4 = ((int64_t)v[6]);
  int64_t n5 = (((int64_t)n3) + ((int64_t)n4));
  int64_t n6 = ((int64_t)n5);
  int64_t n7 = ((int64_t)n6);
  int64_t n8 = (((int64_t)n1) * ((int64_t)n7));
  int64_t n9 = ((int64_t)v[3]);
  int64_t n10 = ((int64_t)v[5]);
  int64_t n11 = ((int64_t)(-((int64_t)2)));
  int64_t n12 = (((int64_t)n10) * ((int64_t)n11));
  int64_t n13 = ((int64_t)v[7]);
  int64_t n14 = ((int64_t)((int64_t)2));
  int64_t n15 = (((int64_t)n13) * ((int64_t)n14));
  int64_t n16 = (((int64_t)n12) + ((int64_t)n15));
  int64_t n17 = (((int64_t)n9) * ((int64_t)n16));
  int64_t n18 = ((int64_t)v[4]);
  int64_t n19 = ((int64_t)v[4]);
  int64_t n20 = (((int64_t)n18) * ((int64_t)n19));
  int64_t n21 = ((int64_t)v[5]);
  int64_t n22 = ((int64_t)v[5]);
  int64_t n23 = (((int64_t)n21) * ((int64_t)n22));
  int64_t n24 = ((int64_t)v[6]);
  int64_t n25 = ((int64_t)v[6]);
  int64_t n26 = (-((int64_t)n25));
  int64_t n27 = ((int64_t)n26);
  int64_t n28 = ((int64_t)n27);
  int64_t n29 = (((int64_t)n24) * ((int64_t)n28));
  int64_t n30 = ((int64_t)v[7]);
  int64_t n31 = ((int64_t)v[7]);
  int64_t n32 = (-((int64_t)n31));
  int64_t n33 = (((int64_t)n30) * ((int64_t)n32));
  int64_t n34 = (((int64_t)n29) + ((int64_t)n33));
  int64_t n35 = (((int64_t)n23) + ((int64_t)n34));
  int64_t n36 = (((int64_t)n20) + ((int64_t)n35));
  int64_t n37 = (((int64_t)n17) + ((int64_t)n36));
  int64_t n38 = (((int64_t)n8) + ((int64_t)n37));
  __int128 n39 = (((__int128)n0) * ((__int128)n38));
  int64_t n40 = ((int64_t)v[1]);
  int64_t n41 = ((int64_t)v[1]);
  int64_t n42 = ((int64_t)n6);
  int64_t n43 = (((int64_t)n41) * ((int64_t)n42));
  int64_t n44 = ((int64_t)v[3]);
  int64_t n45 = ((int64_t)v[4]);
  int64_t n46 = ((int64_t)((int64_t)2));
  int64_t n47 = (((int64_t)n45) * ((int64_t)n46));
  int64_t n48 = ((int64_t)v[6]);
  int64_t n49 = ((int64_t)(-((int64_t)2)));
  int64_t n50 = (((int64_t)n48) * ((int64_t)n49));
  int64_t n51 = (((int64_t)n47) + ((int64_t)n50));
  int64_t n52 = (((int64_t)n44) * ((int64_t)n51));
  int64_t n53 = (((int64_t)n43) + ((int64_t)n52));
  __int128 n54 = (((__int128)n40) * ((__int128)n53));
  int64_t n55 = ((int64_t)v[3]);
  int64_t n56 = ((int64_t)v[4]);
  int64_t n57 = ((int64_t)v[7]);
  int64_t n58 = ((int64_t)(-((int64_t)2)));
  int64_t n59 = (((int64_t)n57) * ((int64_t)n58));
  int64_t n60 = (((int64_t)n56) * ((int64_t)n59));
  int64_t n61 = ((int64_t)v[5]);
  int64_t n62 = ((int64_t)v[6]);
  int64_t n63 = ((int64_t)((int64_t)2));
  int64_t n64 = (((int64_t)n62) * ((int64_t)n63));
  int64_t n65 = (((int64_t)n61) * ((int64_t)n64));
  int64_t n66 = (((int64_t)n60) + ((int64_t)n65));
  __int128 n67 = (((__int128)n55) * ((__int128)n66));
  int64_t n68 = ((int64_t)v[4]);
  int64_t n69 = ((int64_t)v[4]);
  int64_t n70 = ((int64_t)n27);
  int64_t n71 = (((int64_t)n69) * ((int64_t)n70));
  int64_t n72 = ((int64_t)v[6]);
  int64_t n73 = ((int64_t)v[6]);
  int64_t n74 = (((int64_t)n72) * ((int64_t)n73));
  int64_t n75 = ((int64_t)v[7]);
  int64_t n76 = ((int64_t)v[7]);
  int64_t n77 = (((int64_t)n75) * ((int64_t)n76));
  int64_t n78 = (((int64_t)n74) + ((int64_t)n77));
  int64_t n79 = (((int64_t)n71) + ((int64_t)n78));
  __int128 n80 = (((__int128)n68) * ((__int128)n79));
  int64_t n81 = ((int64_t)v[5]);
  int64_t n82 = ((int64_t)v[5]);
  int64_t n83 = ((int64_t)n27);
  int64_t n84 = (((int64_t)n82) * ((int64_t)n83));
  __int128 n85 = (((__int128)n81) * ((__int128)n84));
  __int128 n86 = (((__int128)n80) + ((__int128)n85));
  __int128 n87 = (((__int128)n67) + ((__int128)n86));
  __int128 n88 = (((__int128)n54) + ((__int128)n87));
  __int128 n89 = (((__int128)n39) + ((__int128)n88));
  return (((int)(((__int128)n89) > ((__int128)0))) - ((int)(((__int128)n89) < ((__int128)0))));
}

static int lb6_incircle(const int64_t *v) {
  int64_t n0 = ((int64_t)v[1]);
  int64_t n1 = ((int64_t)v[4]);
  int64_t n2 = ((int64_t)(-((int64_t)2)));
  int64_t n3 = (((int64_t)n1) * ((int64_t)n2));
  int64_t n4 = ((int64_t)v[6]);
  int64_t n5 = ((int64_t)((int64_t)2));
  int64_t n6 = (((int64_t)n4) * ((int64_t)n5));
  int64_t n7 = (((int64_t)n3) + ((int64_t)n6));
  int64_t n8 = (((int64_t)n0) * ((int64_t)n7));
  int64_t n9 = ((int64_t)v[3]);
  int64_t n10 = ((int64_t)v[4]);
  int64_t n11 = ((int64_t)((int64_t)2));
  int64_t n12 = (((int64_t)n10) * ((int64_t)n11));
  int64_t n13 = ((int64_t)v[6]);
  int64_t n14 = ((int64_t)(-((int64_t)2)));
  int64_t n15 = (((int64_t)n13) * ((int64_t)n14));
  int64_t n16 = (((int64_t)n12) + ((int64_t)n15));
  int64_t n17 = (((int64_t)n9) * ((int64_t)n16));
  int64_t n18 = (((int64_t)n8) + ((int64_t)n17));
  return (((int)(((int64_t)n18) > ((int64_t)0))) - ((int)(((int64_t)n18) < ((int64_t)0))));
}

static int lb7_incircle(const int64_t *v) {
  int64_t n0 = ((int64_t)v[4]);
  int64_t n1 = (-((int64_t)n0));
  int64_t n2 = ((int64_t)v[6]);
  int64_t n3 = (((int64_t)n1) + ((int64_t)n2));
  return (((int)(((int64_t)n3) > ((int64_t)0))) - ((int)(((int64_t)n3) < ((int64_t)0))));
}

static int lb8_incircle(const int64_t *v) {
  int64_t n0 = ((int64_t)v[0]);
  int64_t n1 = ((int64_t)v[4]);
  int64_t n2 = ((int64_t)(-((int64_t)2)));
  int64_t n3 = (((int64_t)n1) * ((int64_t)n2));
  int64_t n4 = ((int64_t)v[6]);
  int64_t n5 = ((int64_t)((int64_t)2));
  int64_t n6 = (((int64_t)n4) * ((int64_t)n5));
  int64_t n7 = (((int64_t)n3) + ((int64_t)n6));
  int64_t n8 = (((int64_t)n0) * ((int64_t)n7));
  int64_t n9 = ((int64_t)v[3]);
  int64_t n10 = ((int64_t)v[5]);
  int64_t n11 = ((int64_t)(-((int64_t)2)));
  int64_t n12 = (((int64_t)n10) * ((int64_t)n11));
  int64_t n13 = ((int64_t)v[7]);
  int64_t n14 = ((int64_t)((int64_t)2));
  int64_t n15 = (((int64_t)n13) * ((int64_t)n14));
  int64_t n16 = (((int64_t)n12) + ((int64_t)n15));
  int64_t n17 = (((int64_t)n9) * ((int64_t)n16));
  int64_t n18 = ((int64_t)v[4]);
  int64_t n19 = ((int64_t)v[4]);
  int64_t n20 = (((int64_t)n18) * ((int64_t)n19));
  int64_t n21 = ((int64_t)v[5]);
  int64_t n22 = ((int64_t)v[5]);
  int64_t n23 = (((int64_t)n21) * ((int64_t)n22));
  int64_t n24 = ((int64_t)v[6]);
  int64_t n25 = ((int64_t)v[6]);
  int64_t n26 = (-((int64_t)n25));
  int64_t n27 = (((int64_t)n24) * ((int64_t)n26));
  int64_t n28 = ((int64_t)v[7]);
  int64_t n29 = ((int64_t)v[7]);
  int64_t n30 = (-((int64_t)n29));
  int64_t n31 = (((int64_t)n28) * ((int64_t)n30));
  int64_t n32 = (((int64_t)n27) + ((int64_t)n31));
  int64_t n33 = (((int64_t)n23) + ((int64_t)n32));
  int64_t n34 = (((int64_t)n20) + ((int64_t)n33));
  int64_t n35 = (((int64_t)n17) + ((int64_t)n34));
  int64_t n36 = (((int64_t)n8) + ((int64_t)n35));
  return (((int)(((int64_t)n36) > ((int64_t)0))) - ((int)(((int64_t)n36) < ((int64_t)0))));
}

static int lb9_incircle(const int64_t *v) {
  int64_t n0 = ((int64_t)v[4]);
  int64_t n1 = (-((int64_t)n0));
  int64_t n2 = ((int64_t)v[6]);
  int64_t n3 = (((int64_t)n1) + ((int64_t)n2));
  return (((int)(((int64_t)n3) > ((int64_t)0))) - ((int)(((int64_t)n3) < ((int64_t)0))));
}

static int lb10_incircle(const int64_t *v) {
  int64_t n0 = ((int64_t)v[0]);
  int64_t n1 = ((int64_t)v[5]);
  int64_t n2 = (-((int64_t)n1));
  int64_t n3 = ((int64_t)v[7]);
  int64_t n4 = (((int64_t)n2) + ((int64_t)n3));
  int64_t n5 = (((int64_t)n0) * ((int64_t)n4));
  int64_t n6 = ((int64_t)v[1]);
  int64_t n7 = ((int64_t)v[4]);
  int64_t n8 = ((int64_t)v[6]);
  int64_t n9 = (-((int64_t)n8));
  int64_t n10 = (((int64_t)n7) + ((int64_t)n9));
  int64_t n11 = (((int64_t)n6) * ((int64_t)n10));
  int64_t n12 = ((int64_t)v[4]);
  int64_t n13 = ((int64_t)v[7]);
  int64_t n14 = (-((int64_t)n13));
  int64_t n15 = (((int64_t)n12) * ((int64_t)n14));
  int64_t n16 = ((int64_t)v[5]);
  int64_t n17 = ((int64_t)v[6]);
  int64_t n18 = (((int64_t)n16) * ((int64_t)n17));
  int64_t n19 = (((int64_t)n15) + ((int64_t)n18));
  int64_t n20 = (((int64_t)n11) + ((int64_t)n19));
  int64_t n21 = (((int64_t)n5) + ((int64_t)n20));
  return (((int)(((int64_t)n21) > ((int64_t)0))) - ((int)(((int64_t)n21) < ((int64_t)0))));
}

static int lb11_incircle(const int64_t *v) {
  int64_t n0 = ((int64_t)v[4]);
  int64_t n1 = ((int64_t)v[6]);
  int64_t n2 = (-((int64_t)n1));
  int64_t n3 = (((int64_t)n0) + ((int64_t)n2));
  return (((int)(((int64_t)n3) > ((int64_t)0))) - ((int)(((int64_t)n3) < ((int64_t)0))));
}

static int lb12_incircle(const int64_t *v) {
  int64_t n0 = ((int64_t)v[5]);
  int64_t n1 = (-((int64_t)n0));
  int64_t n2 = ((int64_t)v[7]);
  int64_t n3 = (((int64_t)n1) + ((int64_t)n2));
  return (((int)(((int64_t)n3) > ((int64_t)0))) - ((int)(((int64_t)n3) < ((int64_t)0))));
}

static int lb13_incircle(const int64_t *v) {
  int64_t n0 = ((int64_t)v[0]);
  int64_t n1 = ((int64_t)v[0]);
  int64_t n2 = ((int64_t)v[5]);
  int64_t n3 = ((int64_t)v[7]);
  int64_t n4 = (-((int64_t)n3));
  int64_t n5 = ((int64_t)n4);
  int64_t n6 = ((int64_t)n5);
  int64_t n7 = (((int64_t)n2) + ((int64_t)n6));
  int64_t n8 = ((int64_t)n7);
  int64_t n9 = ((int64_t)n8);
  int64_t n10 = (((int64_t)n1) * ((int64_t)n9));
  int64_t n11 = ((int64_t)v[2]);
  int64_t n12 = ((int64_t)v[5]);
  int64_t n13 = ((int64_t)(-((int64_t)2)));
  int64_t n14 = (((int64_t)n12) * ((int64_t)n13));
  int64_t n15 = ((int64_t)v[7]);
  int64_t n16 = ((int64_t)((int64_t)2));
  int64_t n17 = (((int64_t)n15) * ((int64_t)n16));
  int64_t n18 = (((int64_t)n14) + ((int64_t)n17));
  int64_t n19 = (((int64_t)n11) * ((int64_t)n18));
  int64_t n20 = (((int64_t)n10) + ((int64_t)n19));
  __int128 n21 = (((__int128)n0) * ((__int128)n20));
  int64_t n22 = ((int64_t)v[1]);
  int64_t n23 = ((int64_t)v[1]);
  int64_t n24 = ((int64_t)n8);
  int64_t n25 = (((int64_t)n23) * ((int64_t)n24));
  int64_t n26 = ((int64_t)v[2]);
  int64_t n27 = ((int64_t)v[4]);
  int64_t n28 = ((int64_t)((int64_t)2));
  int64_t n29 = (((int64_t)n27) * ((int64_t)n28));
  int64_t n30 = ((int64_t)v[6]);
  int64_t n31 = ((int64_t)(-((int64_t)2)));
  int64_t n32 = (((int64_t)n30) * ((int64_t)n31));
  int64_t n33 = (((int64_t)n29) + ((int64_t)n32));
  int64_t n34 = (((int64_t)n26) * ((int64_t)n33));
  int64_t n35 = ((int64_t)v[4]);
  int64_t n36 = ((int64_t)v[4]);
  int64_t n37 = (-((int64_t)n36));
  int64_t n38 = (((int64_t)n35) * ((int64_t)n37));
  int64_t n39 = ((int64_t)v[5]);
  int64_t n40 = ((int64_t)v[5]);
  int64_t n41 = (-((int64_t)n40));
  int64_t n42 = (((int64_t)n39) * ((int64_t)n41));
  int64_t n43 = ((int64_t)v[6]);
  int64_t n44 = ((int64_t)v[6]);
  int64_t n45 = (((int64_t)n43) * ((int64_t)n44));
  int64_t n46 = ((int64_t)v[7]);
  int64_t n47 = ((int64_t)v[7]);
  int64_t n48 = (((int64_t)n46) * ((int64_t)n47));
  int64_t n49 = (((int64_t)n45) + ((int64_t)n48));
  int64_t n50 = (((int64_t)n42) + ((int64_t)n49));
  int64_t n51 = (((int64_t)n38) + ((int64_t)n50));
  int64_t n52 = (((int64_t)n34) + ((int64_t)n51));
  int64_t n53 = (((int64_t)n25) + ((int64_t)n52));
  __int128 n54 = (((__int128)n22) * ((__int128)n53));
  int64_t n55 = ((int64_t)v[2]);
  int64_t n56 = ((int64_t)v[4]);
  int64_t n57 = ((int64_t)v[7]);
  int64_t n58 = ((int64_t)(-((int64_t)2)));
  int64_t n59 = (((int64_t)n57) * ((int64_t)n58));
  int64_t n60 = (((int64_t)n56) * ((int64_t)n59));
  int64_t n61 = ((int64_t)v[5]);
  int64_t n62 = ((int64_t)v[6]);
  int64_t n63 = ((int64_t)((int64_t)2));
  int64_t n64 = (((int64_t)n62) * ((int64_t)n63));
  int64_t n65 = (((int64_t)n61) * ((int64_t)n64));
  int64_t n66 = (((int64_t)n60) + ((int64_t)n65));
  __int128 n67 = (((__int128)n55) * ((__int128)n66));
  int64_t n68 = ((int64_t)v[4]);
  int64_t n69 = ((int64_t)v[4]);
  int64_t n70 = ((int64_t)v[7]);
  int64_t n71 = (((int64_t)n69) * ((int64_t)n70));
  __int128 n72 = (((__int128)n68) * ((__int128)n71));
  int64_t n73 = ((int64_t)v[5]);
  int64_t n74 = ((int64_t)v[5]);
  int64_t n75 = ((int64_t)v[7]);
  int64_t n76 = (((int64_t)n74) * ((int64_t)n75));
  int64_t n77 = ((int64_t)v[6]);
  int64_t n78 = ((int64_t)v[6]);
  int64_t n79 = (-((int64_t)n78));
  int64_t n80 = (((int64_t)n77) * ((int64_t)n79));
  int64_t n81 = ((int64_t)v[7]);
  int64_t n82 = ((int64_t)n5);
  int64_t n83 = (((int64_t)n81) * ((int64_t)n82));
  int64_t n84 = (((int64_t)n80) + ((int64_t)n83));
  int64_t n85 = (((int64_t)n76) + ((int64_t)n84));
  __int128 n86 = (((__int128)n73) * ((__int128)n85));
  __int128 n87 = (((__int128)n72) + ((__int128)n86));
  __int128 n88 = (((__int128)n67) + ((__int128)n87));
  __int128 n89 = (((__int128)n54) + ((__int128)n88));
  __int128 n90 = (((__int128)n21) + ((__int128)n89));
  return (((int)(((__int128)n90) > ((__int128)0))) - ((int)(((__int128)n90) < ((__int128)0))));
}

static int lb14_incircle(const int64_t *v) {
  int64_t n0 = ((int64_t)v[1]);
  int64_t n1 = ((int64_t)v[5]);
  int64_t n2 = ((int64_t)((int64_t)2));
  int64_t n3 = (((int64_t)n1) * ((int64_t)n2));
  int64_t n4 = ((int64_t)v[7]);
  int64_t n5 = ((int64_t)(-((int64_t)2)));
  int64_t n6 = (((int64_t)n4) * ((int64_t)n5));
  int64_t n7 = (((int64_t)n3) + ((int64_t)n6));
  int64_t n8 = (((int64_t)n0) * ((int64_t)n7));
  int64_t n9 = ((int64_t)v[2]);
  int64_t n10 = ((int64_t)v[4]);
  int64_t n11 = ((int64_t)((int64_t)2));
  int64_t n12 = (((int64_t)n10) * ((int64_t)n11));
  int64_t n13 = ((int64_t)v[6]);
  int64_t n14 = ((int64_t)(-((int64_t)2)));
  int64_t n15 = (((int64_t)n13) * ((int64_t)n14));
  int64_t n16 = (((int64_t)n12) + ((int64_t)n15));
  int64_t n17 = (((int64_t)n9) * ((int64_t)n16));
  int64_t n18 = ((int64_t)v[4]);
  int64_t n19 = ((int64_t)v[4]);
  int64_t n20 = (-((int64_t)n19));
  int64_t n21 = (((int64_t)n18) * ((int64_t)n20));
  int64_t n22 = ((int64_t)v[5]);
  int64_t n23 = ((int64_t)v[5]);
  int64_t n24 = (-((int64_t)n23));
  int64_t n25 = (((int64_t)n22) * ((int64_t)n24));
  int64_t n26 = ((int64_t)v[6]);
  int64_t n27 = ((int64_t)v[6]);
  int64_t n28 = (((int64_t)n26) * ((int64_t)n27));
  int64_t n29 = ((int64_t)v[7]);
  int64_t n30 = ((int64_t)v[7]);
  int64_t n31 = (((int64_t)n29) * ((int64_t)n30));
  int64_t n32 = (((int64_t)n28) + ((int64_t)n31));
  int64_t n33 = (((int64_t)n25) + ((int64_t)n32));
  int64_t n34 = (((int64_t)n21) + ((int64_t)n33));
  int64_t n35 = (((int64_t)n17) + ((int64_t)n34));
  int64_t n36 = (((int64_t)n8) + ((int64_t)n35));
  return (((int)(((int64_t)n36) > ((int64_t)0))) - ((int)(((int64_t)n36) < ((int64_t)0))));
}

static int lb15_incircle(const int64_t *v) {
  int64_t n0 = ((int64_t)v[5]);
  int64_t n1 = ((int64_t)v[7]);
  int64_t n2 = (-((int64_t)n1));
  int64_t n3 = (((int64_t)n0) + ((int64_t)n2));
  return (((int)(((int64_t)n3) > ((int64_t)0))) - ((int)(((int64_t)n3) < ((int64_t)0))));
}

static int lb16_incircle(const int64_t *v) {
  int64_t n0 = ((int64_t)v[0]);
  int64_t n1 = ((int64_t)v[5]);
  int64_t n2 = ((int64_t)((int64_t)2));
  int64_t n3 = (((int64_t)n1) * ((int64_t)n2));
  int64_t n4 = ((int64_t)v[7]);
  int64_t n5 = ((int64_t)(-((int64_t)2)));
  int64_t n6 = (((int64_t)n4) * ((int64_t)n5));
  int64_t n7 = (((int64_t)n3) + ((int64_t)n6));
  int64_t n8 = (((int64_t)n0) * ((int64_t)n7));
  int64_t n9 = ((int64_t)v[2]);
  int64_t n10 = ((int64_t)v[5]);
  int64_t n11 = ((int64_t)(-((int64_t)2)));
  int64_t n12 = (((int64_t)n10) * ((int64_t)n11));
  int64_t n13 = ((int64_t)v[7]);
  int64_t n14 = ((int64_t)((int64_t)2));
  int64_t n15 = (((int64_t)n13) * ((int64_t)n14));
  int64_t n16 = (((int64_t)n12) + ((int64_t)n15));
  int64_t n17 = (((int64_t)n9) * ((int64_t)n16));
  int64_t n18 = (((int64_t)n8) + ((int64_t)n17));
  return (((int)(((int64_t)n18) > ((int64_t)0))) - ((int)(((int64_t)n18) < ((int64_t)0))));
}

static int lb17_incircle(const int64_t *v) {
  int64_t n0 = ((int64_t)v[5]);
  int64_t n1 = ((int64_t)v[7]);
  int64_t n2 = (-((int64_t)n1));
  int64_t n3 = (((int64_t)n0) + ((int64_t)n2));
  return (((int)(((int64_t)n3) > ((int64_t)0))) - ((int)(((int64_t)n3) < ((int64_t)0))));
}

static int lb18_incircle(const int64_t *v) {
  int64_t n0 = ((int64_t)v[0]);
  int64_t n1 = ((int64_t)v[5]);
  int64_t n2 = (-((int64_t)n1));
  int64_t n3 = ((int64_t)v[7]);
  int64_t n4 = (((int64_t)n2) + ((int64_t)n3));
  int64_t n5 = (((int64_t)n0) * ((int64_t)n4));
  int64_t n6 = ((int64_t)v[1]);
  int64_t n7 = ((int64_t)v[4]);
  int64_t n8 = ((int64_t)v[6]);
  int64_t n9 = (-((int64_t)n8));
  int64_t n10 = (((int64_t)n7) + ((int64_t)n9));
  int64_t n11 = (((int64_t)n6) * ((int64_t)n10));
  int64_t n12 = ((int64_t)v[4]);
  int64_t n13 = ((int64_t)v[7]);
  int64_t n14 = (-((int64_t)n13));
  int64_t n15 = (((int64_t)n12) * ((int64_t)n14));
  int64_t n16 = ((int64_t)v[5]);
  int64_t n17 = ((int64_t)v[6]);
  int64_t n18 = (((int64_t)n16) * ((int64_t)n17));
  int64_t n19 = (((int64_t)n15) + ((int64_t)n18));
  int64_t n20 = (((int64_t)n11) + ((int64_t)n19));
  int64_t n21 = (((int64_t)n5) + ((int64_t)n20));
  return (((int)(((int64_t)n21) > ((int64_t)0))) - ((int)(((int64_t)n21) < ((int64_t)0))));
}

static int lb19_incircle(const int64_t *v) {
  int64_t n0 = ((int64_t)v[4]);
  int64_t n1 = ((int64_t)v[6]);
  int64_t n2 = (-((int64_t)n1));
  int64_t n3 = (((int64_t)n0) + ((int64_t)n2));
  return (((int)(((int64_t)n3) > ((int64_t)0))) - ((int)(((int64_t)n3) < ((int64_t)0))));
}

static int lb20_incircle(const int64_t *v) {
  int64_t n0 = ((int64_t)v[5]);
  int64_t n1 = (-((int64_t)n0));
  int64_t n2 = ((int64_t)v[7]);
  int64_t n3 = (((int64_t)n1) + ((int64_t)n2));
  return (((int)(((int64_t)n3) > ((int64_t)0))) - ((int)(((int64_t)n3) < ((int64_t)0))));
}

static int lb21_incircle(const int64_t *v) {
  int64_t n0 = ((int64_t)v[0]);
  int64_t n1 = ((int64_t)v[0]);
  int64_t n2 = ((int64_t)v[2]);
  int64_t n3 = ((int64_t)v[6]);
  int64_t n4 = (-((int64_t)n3));
  int64_t n5 = ((int64_t)n4);
  int64_t n6 = ((int64_t)n5);
  int64_t n7 = (((int64_t)n2) + ((int64_t)n6));
  int64_t n8 = ((int64_t)n7);
  int64_t n9 = ((int64_t)n8);
  int64_t n10 = (((int64_t)n1) * ((int64_t)n9));
  int64_t n11 = ((int64_t)v[2]);
  int64_t n12 = ((int64_t)v[2]);
  int64_t n13 = (-((int64_t)n12));
  int64_t n14 = (((int64_t)n11) * ((int64_t)n13));
  int64_t n15 = ((int64_t)v[3]);
  int64_t n16 = ((int64_t)v[3]);
  int64_t n17 = (-((int64_t)n16));
  int64_t n18 = ((int64_t)v[5]);
  int64_t n19 = ((int64_t)((int64_t)2));
  int64_t n20 = (((int64_t)n18) * ((int64_t)n19));
  int64_t n21 = (((int64_t)n17) + ((int64_t)n20));
  int64_t n22 = (((int64_t)n15) * ((int64_t)n21));
  int64_t n23 = ((int64_t)v[5]);
  int64_t n24 = ((int64_t)v[7]);
  int64_t n25 = ((int64_t)(-((int64_t)2)));
  int64_t n26 = (((int64_t)n24) * ((int64_t)n25));
  int64_t n27 = (((int64_t)n23) * ((int64_t)n26));
  int64_t n28 = ((int64_t)v[6]);
  int64_t n29 = ((int64_t)v[6]);
  int64_t n30 = (((int64_t)n28) * ((int64_t)n29));
  int64_t n31 = ((int64_t)v[7]);
  int64_t n32 = ((int64_t)v[7]);
  int64_t n33 = (((int64_t)n31) * ((int64_t)n32));
  int64_t n34 = (((int64_t)n30) + ((int64_t)n33));
  int64_t n35 = (((int64_t)n27) + ((int64_t)n34));
  int64_t n36 = (((int64_t)n22) + ((int64_t)n35));
  int64_t n37 = (((int64_t)n14) + ((int64_t)n36));
  int64_t n38 = (((int64_t)n10) + ((int64_t)n37));
  __int128 n39 = (((__int128)n0) * ((__int128)n38));
  int64_t n40 = ((int64_t)v[1]);
  int64_t n41 = ((int64_t)v[1]);
  int64_t n42 = ((int64_t)n8);
  int64_t n43 = (((int64_t)n41) * ((int64_t)n42));
  int64_t n44 = ((int64_t)v[2]);
  int64_t n45 = ((int64_t)v[5]);
  int64_t n46 = ((int64_t)(-((int64_t)2)));
  int64_t n47 = (((int64_t)n45) * ((int64_t)n46));
  int64_t n48 = (((int64_t)n44) * ((int64_t)n47));
  int64_t n49 = ((int64_t)v[5]);
  int64_t n50 = ((int64_t)v[6]);
  int64_t n51 = ((int64_t)((int64_t)2));
  int64_t n52 = (((int64_t)n50) * ((int64_t)n51));
  int64_t n53 = (((int64_t)n49) * ((int64_t)n52));
  int64_t n54 = (((int64_t)n48) + ((int64_t)n53));
  int64_t n55 = (((int64_t)n43) + ((int64_t)n54));
  __int128 n56 = (((__int128)n40) * ((__int128)n55));
  int64_t n57 = ((int64_t)v[2]);
  int64_t n58 = ((int64_t)v[2]);
  int64_t n59 = ((int64_t)v[6]);
  int64_t n60 = (((int64_t)n58) * ((int64_t)n59));
  int64_t n61 = ((int64_t)v[5]);
  int64_t n62 = ((int64_t)v[7]);
  int64_t n63 = ((int64_t)((int64_t)2));
  int64_t n64 = (((int64_t)n62) * ((int64_t)n63));
  int64_t n65 = (((int64_t)n61) * ((int64_t)n64));
  int64_t n66 = ((int64_t)v[6]);
  int64_t n67 = ((int64_t)n5);
  int64_t n68 = (((int64_t)n66) * ((int64_t)n67));
  int64_t n69 = ((int64_t)v[7]);
  int64_t n70 = ((int64_t)v[7]);
  int64_t n71 = (-((int64_t)n70));
  int64_t n72 = (((int64_t)n69) * ((int64_t)n71));
  int64_t n73 = (((int64_t)n68) + ((int64_t)n72));
  int64_t n74 = (((int64_t)n65) + ((int64_t)n73));
  int64_t n75 = (((int64_t)n60) + ((int64_t)n74));
  __int128 n76 = (((__int128)n57) * ((__int128)n75));
  int64_t n77 = ((int64_t)v[3]);
  int64_t n78 = ((int64_t)v[3]);
  int64_t n79 = ((int64_t)v[6]);
  int64_t n80 = (((int64_t)n78) * ((int64_t)n79));
  int64_t n81 = ((int64_t)v[5]);
  int64_t n82 = ((int64_t)v[6]);
  int64_t n83 = ((int64_t)(-((int64_t)2)));
  int64_t n84 = (((int64_t)n82) * ((int64_t)n83));
  int64_t n85 = (((int64_t)n81) * ((int64_t)n84));
  int64_t n86 = (((int64_t)n80) + ((int64_t)n85));
  __int128 n87 = (((__int128)n77) * ((__int128)n86));
  __int128 n88 = (((__int128)n76) + ((__int128)n87));
  __int128 n89 = (((__int128)n56) + ((__int128)n88));
  __int128 n90 = (((__int128)n39) + ((__int128)n89));
  return (((int)(((__int128)n90) > ((__int128)0))) - ((int)(((__int128)n90) < ((__int128)0))));
}

static int lb22_incircle(const int64_t *v) {
  int64_t n0 = ((int64_t)v[1]);
  int64_t n1 = ((int64_t)v[2]);
  int64_t n2 = ((int64_t)((int64_t)2));
  int64_t n3 = (((int64_t)n1) * ((int64_t)n2));
  int64_t n4 = ((int64_t)v[6]);
  int64_t n5 = ((int64_t)(-((int64_t)2)));
  int64_t n6 = (((int64_t)n4) * ((int64_t)n5));
  int64_t n7 = (((int64_t)n3) + ((int64_t)n6));
  int64_t n8 = (((int64_t)n0) * ((int64_t)n7));
  int64_t n9 = ((int64_t)v[2]);
  int64_t n10 = ((int64_t)v[5]);
  int64_t n11 = ((int64_t)(-((int64_t)2)));
  int64_t n12 = (((int64_t)n10) * ((int64_t)n11));
  int64_t n13 = (((int64_t)n9) * ((int64_t)n12));
  int64_t n14 = ((int64_t)v[5]);
  int64_t n15 = ((int64_t)v[6]);
  int64_t n16 = ((int64_t)((int64_t)2));
  int64_t n17 = (((int64_t)n15) * ((int64_t)n16));
  int64_t n18 = (((int64_t)n14) * ((int64_t)n17));
  int64_t n19 = (((int64_t)n13) + ((int64_t)n18));
  int64_t n20 = (((int64_t)n8) + ((int64_t)n19));
  return (((int)(((int64_t)n20) > ((int64_t)0))) - ((int)(((int64_t)n20) < ((int64_t)0))));
}

static int lb23_incircle(const int64_t *v) {
  int64_t n0 = ((int64_t)v[2]);
  int64_t n1 = ((int64_t)v[6]);
  int64_t n2 = (-((int64_t)n1));
  int64_t n3 = (((int64_t)n0) + ((int64_t)n2));
  return (((int)(((int64_t)n3) > ((int64_t)0))) - ((int)(((int64_t)n3) < ((int64_t)0))));
}

static int lb24_incircle(const int64_t *v) {
  int64_t n0 = ((int64_t)v[0]);
  int64_t n1 = ((int64_t)v[2]);
  int64_t n2 = ((int64_t)((int64_t)2));
  int64_t n3 = (((int64_t)n1) * ((int64_t)n2));
  int64_t n4 = ((int64_t)v[6]);
  int64_t n5 = ((int64_t)(-((int64_t)2)));
  int64_t n6 = (((int64_t)n4) * ((int64_t)n5));
  int64_t n7 = (((int64_t)n3) + ((int64_t)n6));
  int64_t n8 = (((int64_t)n0) * ((int64_t)n7));
  int64_t n9 = ((int64_t)v[2]);
  int64_t n10 = ((int64_t)v[2]);
  int64_t n11 = (-((int64_t)n10));
  int64_t n12 = (((int64_t)n9) * ((int64_t)n11));
  int64_t n13 = ((int64_t)v[3]);
  int64_t n14 = ((int64_t)v[3]);
  int64_t n15 = (-((int64_t)n14));
  int64_t n16 = ((int64_t)v[5]);
  int64_t n17 = ((int64_t)((int64_t)2));
  int64_t n18 = (((int64_t)n16) * ((int64_t)n17));
  int64_t n19 = (((int64_t)n15) + ((int64_t)n18));
  int64_t n20 = (((int64_t)n13) * ((int64_t)n19));
  int64_t n21 = ((int64_t)v[5]);
  int64_t n22 = ((int64_t)v[7]);
  int64_t n23 = ((int64_t)(-((int64_t)2)));
  int64_t n24 = (((int64_t)n22) * ((int64_t)n23));
  int64_t n25 = (((int64_t)n21) * ((int64_t)n24));
  int64_t n26 = ((int64_t)v[6]);
  int64_t n27 = ((int64_t)v[6]);
  int64_t n28 = (((int64_t)n26) * ((int64_t)n27));
  int64_t n29 = ((int64_t)v[7]);
  int64_t n30 = ((int64_t)v[7]);
  int64_t n31 = (((int64_t)n29) * ((int64_t)n30));
  int64_t n32 = (((int64_t)n28) + ((int64_t)n31));
  int64_t n33 = (((int64_t)n25) + ((int64_t)n32));
  int64_t n34 = (((int64_t)n20) + ((int64_t)n33));
  int64_t n35 = (((int64_t)n12) + ((int64_t)n34));
  int64_t n36 = (((int64_t)n8) + ((int64_t)n35));
  return (((int)(((int64_t)n36) > ((int64_t)0))) - ((int)(((int64_t)n36) < ((int64_t)0))));
}

static int lb25_incircle(const int64_t *v) {
  int64_t n0 = ((int64_t)v[2]);
  int64_t n1 = ((int64_t)v[6]);
  int64_t n2 = (-((int64_t)n1));
  int64_t n3 = (((int64_t)n0) + ((int64_t)n2));
  return (((int)(((int64_t)n3) > ((int64_t)0))) - ((int)(((int64_t)n3) < ((int64_t)0))));
}

static int lb26_incircle(const int64_t *v) {
  int64_t n0 = ((int64_t)v[0]);
  int64_t n1 = ((int64_t)v[3]);
  int64_t n2 = ((int64_t)(-((int64_t)2)));
  int64_t n3 = (((int64_t)n1) * ((int64_t)n2));
  int64_t n4 = ((int64_t)v[5]);
  int64_t n5 = ((int64_t)((int64_t)2));
  int64_t n6 = (((int64_t)n4) * ((int64_t)n5));
  int64_t n7 = (((int64_t)n3) + ((int64_t)n6));
  int64_t n8 = (((int64_t)n0) * ((int64_t)n7));
  int64_t n9 = ((int64_t)v[3]);
  int64_t n10 = ((int64_t)v[6]);
  int64_t n11 = ((int64_t)((int64_t)2));
  int64_t n12 = (((int64_t)n10) * ((int64_t)n11));
  int64_t n13 = (((int64_t)n9) * ((int64_t)n12));
  int64_t n14 = ((int64_t)v[5]);
  int64_t n15 = ((int64_t)v[6]);
  int64_t n16 = ((int64_t)(-((int64_t)2)));
  int64_t n17 = (((int64_t)n15) * ((int64_t)n16));
  int64_t n18 = (((int64_t)n14) * ((int64_t)n17));
  int64_t n19 = (((int64_t)n13) + ((int64_t)n18));
  int64_t n20 = (((int64_t)n8) + ((int64_t)n19));
  return (((int)(((int64_t)n20) > ((int64_t)0))) - ((int)(((int64_t)n20) < ((int64_t)0))));
}

static int lb27_incircle(const int64_t *v) {
  int64_t n0 = ((int64_t)v[3]);
  int64_t n1 = ((int64_t)(-((int64_t)2)));
  int64_t n2 = (((int64_t)n0) * ((int64_t)n1));
  int64_t n3 = ((int64_t)v[5]);
  int64_t n4 = ((int64_t)((int64_t)2));
  int64_t n5 = (((int64_t)n3) * ((int64_t)n4));
  int64_t n6 = (((int64_t)n2) + ((int64_t)n5));
  return (((int)(((int64_t)n6) > ((int64_t)0))) - ((int)(((int64_t)n6) < ((int64_t)0))));
}

static int lb28_incircle(const int64_t *v) {
  int64_t n0 = ((int64_t)v[0]);
  int64_t n1 = (-((int64_t)n0));
  int64_t n2 = ((int64_t)v[6]);
  int64_t n3 = (((int64_t)n1) + ((int64_t)n2));
  return (((int)(((int64_t)n3) > ((int64_t)0))) - ((int)(((int64_t)n3) < ((int64_t)0))));
}

static int lb29_incircle(const int64_t *v) {
  if (((int)0)) {
    return ((int)v[0]);
  }
  int64_t n0 = ((int64_t)(-((int64_t)1)));
  return (((int)(((int64_t)n0) > ((int64_t)0))) - ((int)(((int64_t)n0) < ((int64_t)0))));
}

int la_incircle(const int64_t *x, const int64_t *v) {
  {
    int answer = ((int)lb0_incircle(v));
    if ((((int)answer) != ((int)0))) {
      return ((int)answer);
    }
  }
  {
    int answer = ((int)lb1_incircle(v));
    if ((((int)answer) != ((int)0))) {
      return ((int)answer);
    }
  }
  {
    int answer = ((int)lb2_incircle(v));
    if ((((int)answer) != ((int)0))) {
      return ((int)answer);
    }
  }
  {
    int answer = ((int)lb3_incircle(v));
    if ((((int)answer) != ((int)0))) {
      return ((int)answer);
    }
  }
  {
    int answer = ((int)lb4_incircle(v));
    if ((((int)answer) != ((int)0))) {
      return ((int)answer);
    }
  }
  {
    int answer = ((int)lb5_incircle(v));
    if ((((int)answer) != ((int)0))) {
      return ((int)answer);
    }
  }
  {
    int answer = ((int)lb6_incircle(v));
    if ((((int)answer) != ((int)0))) {
      return ((int)answer);
    }
  }
  {
    int answer = ((int)lb7_incircle(v));
    if ((((int)answer) != ((int)0))) {
      return ((int)answer);
    }
  }
  {
    int answer = ((int)lb8_incircle(v));
    if ((((int)answer) != ((int)0))) {
      return ((int)answer);
    }
  }
  {
    int answer = ((int)lb9_incircle(v));
    if ((((int)answer) != ((int)0))) {
      return ((int)answer);
    }
  }
  {
    int answer = ((int)lb10_incircle(v));
    if ((((int)answer) != ((int)0))) {
      return ((int)answer);
    }
  }
  {
    int answer = ((int)lb11_incircle(v));
    if ((((int)answer) != ((int)0))) {
      return ((int)answer);
    }
  }
  {
    int answer = ((int)lb12_incircle(v));
    if ((((int)answer) != ((int)0))) {
      return ((int)answer);
    }
  }
  {
    int answer = ((int)lb13_incircle(v));
    if ((((int)answer) != ((int)0))) {
      return ((int)answer);
    }
  }
  {
    int answer = ((int)lb14_incircle(v));
    if ((((int)answer) != ((int)0))) {
      return ((int)answer);
    }
  }
  {
    int answer = ((int)lb15_incircle(v));
    if ((((int)answer) != ((int)0))) {
      return ((int)answer);
    }
  }
  {
    int answer = ((int)lb16_incircle(v));
    if ((((int)answer) != ((int)0))) {
      return ((int)answer);
    }
  }
  {
    int answer = ((int)lb17_incircle(v));
    if ((((int)answer) != ((int)0))) {
      return ((int)answer);
    }
  }
  {
    int answer = ((int)lb18_incircle(v));
    if ((((int)answer) != ((int)0))) {
      return ((int)answer);
    }
  }
  {
    int answer = ((int)lb19_incircle(v));
    if ((((int)answer) != ((int)0))) {
      return ((int)answer);
    }
  }
  {
    int answer = ((int)lb20_incircle(v));
    if ((((int)answer) != ((int)0))) {
      return ((int)answer);
    }
  }
  {
    int answer = ((int)lb21_incircle(v));
    if ((((int)answer) != ((int)0))) {
      return ((int)answer);
    }
  }
  {
    int answer = ((int)lb22_incircle(v));
    if ((((int)answer) != ((int)0))) {
      return ((int)answer);
    }
  }
  {
    int answer = ((int)lb23_incircle(v));
    if ((((int)answer) != ((int)0))) {
      return ((int)answer);
    }
  }
  {
    int answer = ((int)lb24_incircle(v));
    if ((((int)answer) != ((int)0))) {
      return ((int)answer);
    }
  }
  {
    int answer = ((int)lb25_incircle(v));
    if ((((int)answer) != ((int)0))) {
      return ((int)answer);
    }
  }
  {
    int answer = ((int)lb26_incircle(v));
    if ((((int)answer) != ((int)0))) {
      return ((int)answer);
    }
  }
  {
    int answer = ((int)lb27_incircle(v));
    if ((((int)answer) != ((int)0))) {
      return ((int)answer);
    }
  }
  {
    int answer = ((int)lb28_incircle(v));
    if ((((int)answer) != ((int)0))) {
      return ((int)answer);
    }
  }
  {
    int answer = ((int)lb29_incircle(v));
    if ((((int)answer) != ((int)0))) {
      return ((int)answer);
    }
  }
  if ((((int64_t)x[0]) < ((int64_t)x[1]))) {
    if ((((int64_t)x[0]) < ((int64_t)x[2]))) {
      if ((((int64_t)x[0]) < ((int64_t)x[3]))) {
        if ((((int64_t)x[1]) < ((int64_t)x[2]))) {
          if ((((int64_t)x[1]) < ((int64_t)x[3]))) {
            if ((((int64_t)x[2]) < ((int64_t)x[3]))) {
              return ((int)0);
            }
            return ((int)0);
          }
        }
        if ((((int64_t)x[2]) < ((int64_t)x[3]))) {
          if ((((int64_t)x[1]) < ((int64_t)x[3]))) {
            return ((int)0);
          }
          return ((int)0);
        }
        if ((((int64_t)x[1]) < ((int64_t)x[2]))) {
          return ((int)0);
        }
        return ((int)0);
      }
    }
  }
  if ((((int64_t)x[1]) < ((int64_t)x[2]))) {
    if ((((int64_t)x[1]) < ((int64_t)x[3]))) {
      if ((((int64_t)x[0]) < ((int64_t)x[2]))) {
        if ((((int64_t)x[0]) < ((int64_t)x[3]))) {
          if ((((int64_t)x[2]) < ((int64_t)x[3]))) {
            return ((int)0);
          }
          return ((int)0);
        }
      }
      if ((((int64_t)x[2]) < ((int64_t)x[3]))) {
        if ((((int64_t)x[0]) < ((int64_t)x[3]))) {
          return ((int)0);
        }
        return ((int)0);
      }
      if ((((int64_t)x[0]) < ((int64_t)x[2]))) {
        return ((int)0);
      }
      return ((int)0);
    }
  }
  if ((((int64_t)x[2]) < ((int64_t)x[3]))) {
    if ((((int64_t)x[0]) < ((int64_t)x[1]))) {
      if ((((int64_t)x[0]) < ((int64_t)x[3]))) {
        if ((((int64_t)x[1]) < ((int64_t)x[3]))) {
          return ((int)0);
        }
        return ((int)0);
      }
    }
    if ((((int64_t)x[1]) < ((int64_t)x[3]))) {
      if ((((int64_t)x[0]) < ((int64_t)x[3]))) {
        return ((int)0);
      }
      return ((int)0);
    }
    if ((((int64_t)x[0]) < ((int64_t)x[1]))) {
      return ((int)0);
    }
    return ((int)0);
  }
  if ((((int64_t)x[0]) < ((int64_t)x[1]))) {
    if ((((int64_t)x[0]) < ((int64_t)x[2]))) {
      if ((((int64_t)x[1]) < ((int64_t)x[2]))) {
        return ((int)0);
      }
      return ((int)0);
    }
  }
  if ((((int64_t)x[1]) < ((int64_t)x[2]))) {
    if ((((int64_t)x[0]) < ((int64_t)x[2]))) {
      return ((int)0);
    }
    return ((int)0);
  }
  if ((((int64_t)x[0]) < ((int64_t)x[1]))) {
    return ((int)0);
  }
  return ((int)0);
}

static int lb0_diametral2(const int64_t *v) {
  int64_t n0 = ((int64_t)v[0]);
  int64_t n1 = ((int64_t)v[4]);
  int64_t n2 = (((int64_t)n0) - ((int64_t)n1));
  int64_t n3 = ((int64_t)v[4]);
  int64_t n4 = ((int64_t)v[2]);
  int64_t n5 = (((int64_t)n3) - ((int64_t)n4));
  int64_t n6 = (((int64_t)n2) * ((int64_t)n5));
  int64_t n7 = ((int64_t)v[1]);
  int64_t n8 = ((int64_t)v[5]);
  int64_t n9 = (((int64_t)n7) - ((int64_t)n8));
  int64_t n10 = ((int64_t)v[5]);
  int64_t n11 = ((int64_t)v[3]);
  int64_t n12 = (((int64_t)n10) - ((int64_t)n11));
  int64_t n13 = (((int64_t)n9) * ((int64_t)n12));
  int64_t n14 = (((int64_t)n6) + ((int64_t)n13));
  return (((int)(((int64_t)n14) > ((int64_t)0))) - ((int)(((int64_t)n14) < ((int64_t)0))));
}

static int lb1_diametral2(const int64_t *v) {
  int64_t n0 = ((int64_t)v[3]);
  int64_t n1 = (-((int64_t)n0));
  int64_t n2 = ((int64_t)v[5]);
  int64_t n3 = (((int64_t)n1) + ((int64_t)n2));
  return (((int)(((int64_t)n3) > ((int64_t)0))) - ((int)(((int64_t)n3) < ((int64_t)0))));
}

static int lb2_diametral2(const int64_t *v) {
  int64_t n0 = ((int64_t)v[2]);
  int64_t n1 = (-((int64_t)n0));
  int64_t n2 = ((int64_t)v[4]);
  int64_t n3 = (((int64_t)n1) + ((int64_t)n2));
  return (((int)(((int64_t)n3) > ((int64_t)0))) - ((int)(((int64_t)n3) < ((int64_t)0))));
}

static int lb3_diametral2(const int64_t *v) {
  int64_t n0 = ((int64_t)v[1]);
  int64_t n1 = (-((int64_t)n0));
  int64_t n2 = ((int64_t)v[5]);
  int64_t n3 = (((int64_t)n1) + ((int64_t)n2));
  return (((int)(((int64_t)n3) > ((int64_t)0))) - ((int)(((int64_t)n3) < ((int64_t)0))));
}

static int lb4_diametral2(const int64_t *v) {
  if (((int)0)) {
    return ((int)v[0]);
  }
  int64_t n0 = ((int64_t)(-((int64_t)1)));
  return (((int)(((int64_t)n0) > ((int64_t)0))) - ((int)(((int64_t)n0) < ((int64_t)0))));
}

static int lb5_diametral2(const int64_t *v) {
  int64_t n0 = ((int64_t)v[1]);
  int64_t n1 = ((int64_t)v[3]);
  int64_t n2 = ((int64_t)v[5]);
  int64_t n3 = ((int64_t)(-((int64_t)2)));
  int64_t n4 = (((int64_t)n2) * ((int64_t)n3));
  int64_t n5 = (((int64_t)n1) + ((int64_t)n4));
  int64_t n6 = (((int64_t)n0) + ((int64_t)n5));
  return (((int)(((int64_t)n6) > ((int64_t)0))) - ((int)(((int64_t)n6) < ((int64_t)0))));
}

static int lb6_diametral2(const int64_t *v) {
  if (((int)0)) {
    return ((int)v[0]);
  }
  int64_t n0 = ((int64_t)((int64_t)1));
  return (((int)(((int64_t)n0) > ((int64_t)0))) - ((int)(((int64_t)n0) < ((int64_t)0))));
}

static int lb7_diametral2(const int64_t *v) {
  int64_t n0 = ((int64_t)v[0]);
  int64_t n1 = (-((int64_t)n0));
  int64_t n2 = ((int64_t)v[4]);
  int64_t n3 = (((int64_t)n1) + ((int64_t)n2));
  return (((int)(((int64_t)n3) > ((int64_t)0))) - ((int)(((int64_t)n3) < ((int64_t)0))));
}

static int lb8_diametral2(const int64_t *v) {
  if (((int)0)) {
    return ((int)v[0]);
  }
  int64_t n0 = ((int64_t)((int64_t)1));
  return (((int)(((int64_t)n0) > ((int64_t)0))) - ((int)(((int64_t)n0) < ((int64_t)0))));
}

static int lb9_diametral2(const int64_t *v) {
  if (((int)0)) {
    return ((int)v[0]);
  }
  int64_t n0 = ((int64_t)(-((int64_t)1)));
  return (((int)(((int64_t)n0) > ((int64_t)0))) - ((int)(((int64_t)n0) < ((int64_t)0))));
}

int ln_diametral2(const int64_t *x, const int64_t *v) {
  {
    int answer = ((int)lb0_diametral2(v));
    if ((((int)answer) != ((int)0))) {
      return ((int)answer);
    }
  }
  if ((((int64_t)x[0]) < ((int64_t)x[1]))) {
    if ((((int64_t)x[0]) < ((int64_t)x[2]))) {
      {
        int answer = ((int)lb1_diametral2(v));
        if ((((int)answer) != ((int)0))) {
          return ((int)answer);
        }
      }
      {
        int answer = ((int)lb2_diametral2(v));
        if ((((int)answer) != ((int)0))) {
          return ((int)answer);
        }
      }
      if ((((int64_t)x[1]) < ((int64_t)x[2]))) {
        {
          int answer = ((int)lb3_diametral2(v));
          if ((((int)answer) != ((int)0))) {
            return ((int)answer);
          }
        }
        {
          int answer = ((int)lb4_diametral2(v));
          if ((((int)answer) != ((int)0))) {
            return ((int)answer);
          }
        }
        return ((int)0);
      }
      {
        int answer = ((int)lb5_diametral2(v));
        if ((((int)answer) != ((int)0))) {
          return ((int)answer);
        }
      }
      {
        int answer = ((int)lb6_diametral2(v));
        if ((((int)answer) != ((int)0))) {
          return ((int)answer);
        }
      }
      return ((int)0);
    }
  }
  if ((((int64_t)x[1]) < ((int64_t)x[2]))) {
    {
      int answer = ((int)lb3_diametral2(v));
      if ((((int)answer) != ((int)0))) {
        return ((int)answer);
      }
    }
    {
      int answer = ((int)lb7_diametral2(v));
      if ((((int)answer) != ((int)0))) {
        return ((int)answer);
      }
    }
    if ((((int64_t)x[0]) < ((int64_t)x[2]))) {
      {
        int answer = ((int)lb1_diametral2(v));
        if ((((int)answer) != ((int)0))) {
          return ((int)answer);
        }
      }
      {
        int answer = ((int)lb4_diametral2(v));
        if ((((int)answer) != ((int)0))) {
          return ((int)answer);
        }
      }
      return ((int)0);
    }
    {
      int answer = ((int)lb5_diametral2(v));
      if ((((int)answer) != ((int)0))) {
        return ((int)answer);
      }
    }
    {
      int answer = ((int)lb8_diametral2(v));
      if ((((int)answer) != ((int)0))) {
        return ((int)answer);
      }
    }
    return ((int)0);
  }
  {
    int answer = ((int)lb5_diametral2(v));
    if ((((int)answer) != ((int)0))) {
      return ((int)answer);
    }
  }
  {
    int answer = ((int)lb9_diametral2(v));
    if ((((int)answer) != ((int)0))) {
      return ((int)answer);
    }
  }
  if ((((int64_t)x[0]) < ((int64_t)x[1]))) {
    return ((int)0);
  }
  return ((int)0);
}

static int lb0_compare_x2(const int64_t *v) {
  int64_t n0 = ((int64_t)v[0]);
  int64_t n1 = ((int64_t)v[2]);
  int64_t n2 = (((int64_t)n0) - ((int64_t)n1));
  return (((int)(((int64_t)n2) > ((int64_t)0))) - ((int)(((int64_t)n2) < ((int64_t)0))));
}

static int lb1_compare_x2(const int64_t *v) {
  if (((int)0)) {
    return ((int)v[0]);
  }
  int64_t n0 = ((int64_t)((int64_t)1));
  return (((int)(((int64_t)n0) > ((int64_t)0))) - ((int)(((int64_t)n0) < ((int64_t)0))));
}

int la_compare_x2(const int64_t *x, const int64_t *v) {
  {
    int answer = ((int)lb0_compare_x2(v));
    if ((((int)answer) != ((int)0))) {
      return ((int)answer);
    }
  }
  {
    int answer = ((int)lb1_compare_x2(v));
    if ((((int)answer) != ((int)0))) {
      return ((int)answer);
    }
  }
  if ((((int64_t)x[0]) < ((int64_t)x[1]))) {
    return ((int)0);
  }
  return ((int)0);
}

static int lb0_compare_y2(const int64_t *v) {
  int64_t n0 = ((int64_t)v[1]);
  int64_t n1 = ((int64_t)v[3]);
  int64_t n2 = (((int64_t)n0) - ((int64_t)n1));
  return (((int)(((int64_t)n2) > ((int64_t)0))) - ((int)(((int64_t)n2) < ((int64_t)0))));
}

static int lb1_compare_y2(const int64_t *v) {
  if (((int)0)) {
    return ((int)v[0]);
  }
  int64_t n0 = ((int64_t)((int64_t)1));
  return (((int)(((int64_t)n0) > ((int64_t)0))) - ((int)(((int64_t)n0) < ((int64_t)0))));
}

int la_compare_y2(const int64_t *x, const int64_t *v) {
  {
    int answer = ((int)lb0_compare_y2(v));
    if ((((int)answer) != ((int)0))) {
      return ((int)answer);
    }
  }
  {
    int answer = ((int)lb1_compare_y2(v));
    if ((((int)answer) != ((int)0))) {
      return ((int)answer);
    }
  }
  if ((((int64_t)x[0]) < ((int64_t)x[1]))) {
    return ((int)0);
  }
  return ((int)0);
}

static int lb0_lexicographic2(const int64_t *v) {
  int64_t n0 = ((int64_t)v[0]);
  int64_t n1 = ((int64_t)v[2]);
  int64_t n2 = (((int64_t)n0) - ((int64_t)n1));
  int64_t n3 = ((int64_t)((int64_t)1073741825));
  int64_t n4 = (((int64_t)n2) * ((int64_t)n3));
  int64_t n5 = ((int64_t)v[1]);
  int64_t n6 = ((int64_t)v[3]);
  int64_t n7 = (((int64_t)n5) - ((int64_t)n6));
  int64_t n8 = (((int64_t)n4) + ((int64_t)n7));
  return (((int)(((int64_t)n8) > ((int64_t)0))) - ((int)(((int64_t)n8) < ((int64_t)0))));
}

static int lb1_lexicographic2(const int64_t *v) {
  if (((int)0)) {
    return ((int)v[0]);
  }
  int64_t n0 = ((int64_t)((int64_t)1));
  return (((int)(((int64_t)n0) > ((int64_t)0))) - ((int)(((int64_t)n0) < ((int64_t)0))));
}

int la_lexicographic2(const int64_t *x, const int64_t *v) {
  {
    int answer = ((int)lb0_lexicographic2(v));
    if ((((int)answer) != ((int)0))) {
      return ((int)answer);
    }
  }
  {
    int answer = ((int)lb1_lexicographic2(v));
    if ((((int)answer) != ((int)0))) {
      return ((int)answer);
    }
  }
  if ((((int64_t)x[0]) < ((int64_t)x[1]))) {
    return ((int)0);
  }
  return ((int)0);
}

static int lb0_compare_distance2(const int64_t *v) {
  int64_t n0 = ((int64_t)v[0]);
  int64_t n1 = ((int64_t)v[2]);
  int64_t n2 = (((int64_t)n0) - ((int64_t)n1));
  int64_t n3 = ((int64_t)n2);
  int64_t n4 = ((int64_t)n3);
  int64_t n5 = ((int64_t)n3);
  int64_t n6 = (((int64_t)n4) * ((int64_t)n5));
  int64_t n7 = ((int64_t)v[0]);
  int64_t n8 = ((int64_t)v[4]);
  int64_t n9 = (((int64_t)n7) - ((int64_t)n8));
  int64_t n10 = ((int64_t)n9);
  int64_t n11 = ((int64_t)n10);
  int64_t n12 = ((int64_t)n10);
  int64_t n13 = (((int64_t)n11) * ((int64_t)n12));
  int64_t n14 = (((int64_t)n6) - ((int64_t)n13));
  int64_t n15 = ((int64_t)v[1]);
  int64_t n16 = ((int64_t)v[3]);
  int64_t n17 = (((int64_t)n15) - ((int64_t)n16));
  int64_t n18 = ((int64_t)n17);
  int64_t n19 = ((int64_t)n18);
  int64_t n20 = ((int64_t)n18);
  int64_t n21 = (((int64_t)n19) * ((int64_t)n20));
  int64_t n22 = (((int64_t)n14) + ((int64_t)n21));
  int64_t n23 = ((int64_t)v[1]);
  int64_t n24 = ((int64_t)v[5]);
  int64_t n25 = (((int64_t)n23) - ((int64_t)n24));
  int64_t n26 = ((int64_t)n25);
  int64_t n27 = ((int64_t)n26);
  int64_t n28 = ((int64_t)n26);
  int64_t n29 = (((int64_t)n27) * ((int64_t)n28));
  int64_t n30 = (((int64_t)n22) - ((int64_t)n29));
  return (((int)(((int64_t)n30) > ((int64_t)0))) - ((int)(((int64_t)n30) < ((int64_t)0))));
}

static int lb1_compare_distance2(const int64_t *v) {
  int64_t n0 = ((int64_t)v[3]);
  int64_t n1 = ((int64_t)(-((int64_t)2)));
  int64_t n2 = (((int64_t)n0) * ((int64_t)n1));
  int64_t n3 = ((int64_t)v[5]);
  int64_t n4 = ((int64_t)((int64_t)2));
  int64_t n5 = (((int64_t)n3) * ((int64_t)n4));
  int64_t n6 = (((int64_t)n2) + ((int64_t)n5));
  return (((int)(((int64_t)n6) > ((int64_t)0))) - ((int)(((int64_t)n6) < ((int64_t)0))));
}

static int lb2_compare_distance2(const int64_t *v) {
  int64_t n0 = ((int64_t)v[2]);
  int64_t n1 = ((int64_t)(-((int64_t)2)));
  int64_t n2 = (((int64_t)n0) * ((int64_t)n1));
  int64_t n3 = ((int64_t)v[4]);
  int64_t n4 = ((int64_t)((int64_t)2));
  int64_t n5 = (((int64_t)n3) * ((int64_t)n4));
  int64_t n6 = (((int64_t)n2) + ((int64_t)n5));
  return (((int)(((int64_t)n6) > ((int64_t)0))) - ((int)(((int64_t)n6) < ((int64_t)0))));
}

static int lb3_compare_distance2(const int64_t *v) {
  int64_t n0 = ((int64_t)v[1]);
  int64_t n1 = ((int64_t)(-((int64_t)2)));
  int64_t n2 = (((int64_t)n0) * ((int64_t)n1));
  int64_t n3 = ((int64_t)v[3]);
  int64_t n4 = ((int64_t)((int64_t)2));
  int64_t n5 = (((int64_t)n3) * ((int64_t)n4));
  int64_t n6 = (((int64_t)n2) + ((int64_t)n5));
  return (((int)(((int64_t)n6) > ((int64_t)0))) - ((int)(((int64_t)n6) < ((int64_t)0))));
}

static int lb4_compare_distance2(const int64_t *v) {
  if (((int)0)) {
    return ((int)v[0]);
  }
  int64_t n0 = ((int64_t)(-((int64_t)2)));
  return (((int)(((int64_t)n0) > ((int64_t)0))) - ((int)(((int64_t)n0) < ((int64_t)0))));
}

static int lb5_compare_distance2(const int64_t *v) {
  int64_t n0 = ((int64_t)v[1]);
  int64_t n1 = ((int64_t)((int64_t)2));
  int64_t n2 = (((int64_t)n0) * ((int64_t)n1));
  int64_t n3 = ((int64_t)v[5]);
  int64_t n4 = ((int64_t)(-((int64_t)2)));
  int64_t n5 = (((int64_t)n3) * ((int64_t)n4));
  int64_t n6 = (((int64_t)n2) + ((int64_t)n5));
  return (((int)(((int64_t)n6) > ((int64_t)0))) - ((int)(((int64_t)n6) < ((int64_t)0))));
}

static int lb6_compare_distance2(const int64_t *v) {
  if (((int)0)) {
    return ((int)v[0]);
  }
  int64_t n0 = ((int64_t)((int64_t)2));
  return (((int)(((int64_t)n0) > ((int64_t)0))) - ((int)(((int64_t)n0) < ((int64_t)0))));
}

static int lb7_compare_distance2(const int64_t *v) {
  if (((int)0)) {
    return ((int)v[0]);
  }
  int64_t n0 = ((int64_t)((int64_t)1));
  return (((int)(((int64_t)n0) > ((int64_t)0))) - ((int)(((int64_t)n0) < ((int64_t)0))));
}

static int lb8_compare_distance2(const int64_t *v) {
  if (((int)0)) {
    return ((int)v[0]);
  }
  int64_t n0 = ((int64_t)(-((int64_t)1)));
  return (((int)(((int64_t)n0) > ((int64_t)0))) - ((int)(((int64_t)n0) < ((int64_t)0))));
}

int ln_compare_distance2(const int64_t *x, const int64_t *v) {
  {
    int answer = ((int)lb0_compare_distance2(v));
    if ((((int)answer) != ((int)0))) {
      return ((int)answer);
    }
  }
  if ((((int64_t)x[0]) < ((int64_t)x[1]))) {
    if ((((int64_t)x[0]) < ((int64_t)x[2]))) {
      {
        int answer = ((int)lb1_compare_distance2(v));
        if ((((int)answer) != ((int)0))) {
          return ((int)answer);
        }
      }
      {
        int answer = ((int)lb2_compare_distance2(v));
        if ((((int)answer) != ((int)0))) {
          return ((int)answer);
        }
      }
      if ((((int64_t)x[1]) < ((int64_t)x[2]))) {
        {
          int answer = ((int)lb3_compare_distance2(v));
          if ((((int)answer) != ((int)0))) {
            return ((int)answer);
          }
        }
        {
          int answer = ((int)lb4_compare_distance2(v));
          if ((((int)answer) != ((int)0))) {
            return ((int)answer);
          }
        }
        return ((int)0);
      }
      {
        int answer = ((int)lb5_compare_distance2(v));
        if ((((int)answer) != ((int)0))) {
          return ((int)answer);
        }
      }
      {
        int answer = ((int)lb6_compare_distance2(v));
        if ((((int)answer) != ((int)0))) {
          return ((int)answer);
        }
      }
      return ((int)0);
    }
  }
  if ((((int64_t)x[1]) < ((int64_t)x[2]))) {
    {
      int answer = ((int)lb3_compare_distance2(v));
      if ((((int)answer) != ((int)0))) {
        return ((int)answer);
      }
    }
    {
      int answer = ((int)lb7_compare_distance2(v));
      if ((((int)answer) != ((int)0))) {
        return ((int)answer);
      }
    }
    if ((((int64_t)x[0]) < ((int64_t)x[2]))) {
      return ((int)0);
    }
    return ((int)0);
  }
  {
    int answer = ((int)lb5_compare_distance2(v));
    if ((((int)answer) != ((int)0))) {
      return ((int)answer);
    }
  }
  {
    int answer = ((int)lb8_compare_distance2(v));
    if ((((int)answer) != ((int)0))) {
      return ((int)answer);
    }
  }
  if ((((int64_t)x[0]) < ((int64_t)x[1]))) {
    return ((int)0);
  }
  return ((int)0);
}

static int lb0_dot2(const int64_t *v) {
  int64_t n0 = ((int64_t)v[2]);
  int64_t n1 = ((int64_t)v[0]);
  int64_t n2 = (((int64_t)n0) - ((int64_t)n1));
  int64_t n3 = ((int64_t)v[6]);
  int64_t n4 = ((int64_t)v[4]);
  int64_t n5 = (((int64_t)n3) - ((int64_t)n4));
  int64_t n6 = (((int64_t)n2) * ((int64_t)n5));
  int64_t n7 = ((int64_t)v[3]);
  int64_t n8 = ((int64_t)v[1]);
  int64_t n9 = (((int64_t)n7) - ((int64_t)n8));
  int64_t n10 = ((int64_t)v[7]);
  int64_t n11 = ((int64_t)v[5]);
  int64_t n12 = (((int64_t)n10) - ((int64_t)n11));
  int64_t n13 = (((int64_t)n9) * ((int64_t)n12));
  int64_t n14 = (((int64_t)n6) + ((int64_t)n13));
  return (((int)(((int64_t)n14) > ((int64_t)0))) - ((int)(((int64_t)n14) < ((int64_t)0))));
}

static int lb1_dot2(const int64_t *v) {
  int64_t n0 = ((int64_t)v[5]);
  int64_t n1 = ((int64_t)v[7]);
  int64_t n2 = (-((int64_t)n1));
  int64_t n3 = (((int64_t)n0) + ((int64_t)n2));
  return (((int)(((int64_t)n3) > ((int64_t)0))) - ((int)(((int64_t)n3) < ((int64_t)0))));
}

static int lb2_dot2(const int64_t *v) {
  int64_t n0 = ((int64_t)v[4]);
  int64_t n1 = ((int64_t)v[6]);
  int64_t n2 = (-((int64_t)n1));
  int64_t n3 = (((int64_t)n0) + ((int64_t)n2));
  return (((int)(((int64_t)n3) > ((int64_t)0))) - ((int)(((int64_t)n3) < ((int64_t)0))));
}

static int lb3_dot2(const int64_t *v) {
  int64_t n0 = ((int64_t)v[5]);
  int64_t n1 = (-((int64_t)n0));
  int64_t n2 = ((int64_t)v[7]);
  int64_t n3 = (((int64_t)n1) + ((int64_t)n2));
  return (((int)(((int64_t)n3) > ((int64_t)0))) - ((int)(((int64_t)n3) < ((int64_t)0))));
}

static int lb4_dot2(const int64_t *v) {
  int64_t n0 = ((int64_t)v[4]);
  int64_t n1 = (-((int64_t)n0));
  int64_t n2 = ((int64_t)v[6]);
  int64_t n3 = (((int64_t)n1) + ((int64_t)n2));
  return (((int)(((int64_t)n3) > ((int64_t)0))) - ((int)(((int64_t)n3) < ((int64_t)0))));
}

static int lb5_dot2(const int64_t *v) {
  int64_t n0 = ((int64_t)v[1]);
  int64_t n1 = ((int64_t)v[3]);
  int64_t n2 = (-((int64_t)n1));
  int64_t n3 = (((int64_t)n0) + ((int64_t)n2));
  return (((int)(((int64_t)n3) > ((int64_t)0))) - ((int)(((int64_t)n3) < ((int64_t)0))));
}

static int lb6_dot2(const int64_t *v) {
  if (((int)0)) {
    return ((int)v[0]);
  }
  int64_t n0 = ((int64_t)((int64_t)1));
  return (((int)(((int64_t)n0) > ((int64_t)0))) - ((int)(((int64_t)n0) < ((int64_t)0))));
}

static int lb7_dot2(const int64_t *v) {
  int64_t n0 = ((int64_t)v[1]);
  int64_t n1 = (-((int64_t)n0));
  int64_t n2 = ((int64_t)v[3]);
  int64_t n3 = (((int64_t)n1) + ((int64_t)n2));
  return (((int)(((int64_t)n3) > ((int64_t)0))) - ((int)(((int64_t)n3) < ((int64_t)0))));
}

static int lb8_dot2(const int64_t *v) {
  if (((int)0)) {
    return ((int)v[0]);
  }
  int64_t n0 = ((int64_t)(-((int64_t)1)));
  return (((int)(((int64_t)n0) > ((int64_t)0))) - ((int)(((int64_t)n0) < ((int64_t)0))));
}

static int lb9_dot2(const int64_t *v) {
  if (((int)0)) {
    return ((int)v[0]);
  }
  int64_t n0 = ((int64_t)(-((int64_t)1)));
  return (((int)(((int64_t)n0) > ((int64_t)0))) - ((int)(((int64_t)n0) < ((int64_t)0))));
}

static int lb10_dot2(const int64_t *v) {
  if (((int)0)) {
    return ((int)v[0]);
  }
  int64_t n0 = ((int64_t)((int64_t)1));
  return (((int)(((int64_t)n0) > ((int64_t)0))) - ((int)(((int64_t)n0) < ((int64_t)0))));
}

static int lb11_dot2(const int64_t *v) {
  int64_t n0 = ((int64_t)v[0]);
  int64_t n1 = ((int64_t)v[2]);
  int64_t n2 = (-((int64_t)n1));
  int64_t n3 = (((int64_t)n0) + ((int64_t)n2));
  return (((int)(((int64_t)n3) > ((int64_t)0))) - ((int)(((int64_t)n3) < ((int64_t)0))));
}

static int lb12_dot2(const int64_t *v) {
  int64_t n0 = ((int64_t)v[0]);
  int64_t n1 = (-((int64_t)n0));
  int64_t n2 = ((int64_t)v[2]);
  int64_t n3 = (((int64_t)n1) + ((int64_t)n2));
  return (((int)(((int64_t)n3) > ((int64_t)0))) - ((int)(((int64_t)n3) < ((int64_t)0))));
}

int ln_dot2(const int64_t *x, const int64_t *v) {
  {
    int answer = ((int)lb0_dot2(v));
    if ((((int)answer) != ((int)0))) {
      return ((int)answer);
    }
  }
  if ((((int64_t)x[0]) < ((int64_t)x[1]))) {
    if ((((int64_t)x[0]) < ((int64_t)x[2]))) {
      if ((((int64_t)x[0]) < ((int64_t)x[3]))) {
        {
          int answer = ((int)lb1_dot2(v));
          if ((((int)answer) != ((int)0))) {
            return ((int)answer);
          }
        }
        {
          int answer = ((int)lb2_dot2(v));
          if ((((int)answer) != ((int)0))) {
            return ((int)answer);
          }
        }
        if ((((int64_t)x[1]) < ((int64_t)x[2]))) {
          if ((((int64_t)x[1]) < ((int64_t)x[3]))) {
            {
              int answer = ((int)lb3_dot2(v));
              if ((((int)answer) != ((int)0))) {
                return ((int)answer);
              }
            }
            {
              int answer = ((int)lb4_dot2(v));
              if ((((int)answer) != ((int)0))) {
                return ((int)answer);
              }
            }
            if ((((int64_t)x[2]) < ((int64_t)x[3]))) {
              {
                int answer = ((int)lb5_dot2(v));
                if ((((int)answer) != ((int)0))) {
                  return ((int)answer);
                }
              }
              {
                int answer = ((int)lb6_dot2(v));
                if ((((int)answer) != ((int)0))) {
                  return ((int)answer);
                }
              }
              return ((int)0);
            }
            {
              int answer = ((int)lb7_dot2(v));
              if ((((int)answer) != ((int)0))) {
                return ((int)answer);
              }
            }
            {
              int answer = ((int)lb8_dot2(v));
              if ((((int)answer) != ((int)0))) {
                return ((int)answer);
              }
            }
            return ((int)0);
          }
        }
        if ((((int64_t)x[2]) < ((int64_t)x[3]))) {
          {
            int answer = ((int)lb5_dot2(v));
            if ((((int)answer) != ((int)0))) {
              return ((int)answer);
            }
          }
          {
            int answer = ((int)lb6_dot2(v));
            if ((((int)answer) != ((int)0))) {
              return ((int)answer);
            }
          }
          if ((((int64_t)x[1]) < ((int64_t)x[3]))) {
            return ((int)0);
          }
          return ((int)0);
        }
        {
          int answer = ((int)lb7_dot2(v));
          if ((((int)answer) != ((int)0))) {
            return ((int)answer);
          }
        }
        {
          int answer = ((int)lb8_dot2(v));
          if ((((int)answer) != ((int)0))) {
            return ((int)answer);
          }
        }
        if ((((int64_t)x[1]) < ((int64_t)x[2]))) {
          return ((int)0);
        }
        return ((int)0);
      }
    }
  }
  if ((((int64_t)x[1]) < ((int64_t)x[2]))) {
    if ((((int64_t)x[1]) < ((int64_t)x[3]))) {
      {
        int answer = ((int)lb3_dot2(v));
        if ((((int)answer) != ((int)0))) {
          return ((int)answer);
        }
      }
      {
        int answer = ((int)lb4_dot2(v));
        if ((((int)answer) != ((int)0))) {
          return ((int)answer);
        }
      }
      if ((((int64_t)x[0]) < ((int64_t)x[2]))) {
        if ((((int64_t)x[0]) < ((int64_t)x[3]))) {
          {
            int answer = ((int)lb1_dot2(v));
            if ((((int)answer) != ((int)0))) {
              return ((int)answer);
            }
          }
          {
            int answer = ((int)lb2_dot2(v));
            if ((((int)answer) != ((int)0))) {
              return ((int)answer);
            }
          }
          if ((((int64_t)x[2]) < ((int64_t)x[3]))) {
            {
              int answer = ((int)lb5_dot2(v));
              if ((((int)answer) != ((int)0))) {
                return ((int)answer);
              }
            }
            {
              int answer = ((int)lb9_dot2(v));
              if ((((int)answer) != ((int)0))) {
                return ((int)answer);
              }
            }
            return ((int)0);
          }
          {
            int answer = ((int)lb7_dot2(v));
            if ((((int)answer) != ((int)0))) {
              return ((int)answer);
            }
          }
          {
            int answer = ((int)lb10_dot2(v));
            if ((((int)answer) != ((int)0))) {
              return ((int)answer);
            }
          }
          return ((int)0);
        }
      }
      if ((((int64_t)x[2]) < ((int64_t)x[3]))) {
        {
          int answer = ((int)lb5_dot2(v));
          if ((((int)answer) != ((int)0))) {
            return ((int)answer);
          }
        }
        {
          int answer = ((int)lb9_dot2(v));
          if ((((int)answer) != ((int)0))) {
            return ((int)answer);
          }
        }
        if ((((int64_t)x[0]) < ((int64_t)x[3]))) {
          return ((int)0);
        }
        return ((int)0);
      }
      {
        int answer = ((int)lb7_dot2(v));
        if ((((int)answer) != ((int)0))) {
          return ((int)answer);
        }
      }
      {
        int answer = ((int)lb10_dot2(v));
        if ((((int)answer) != ((int)0))) {
          return ((int)answer);
        }
      }
      if ((((int64_t)x[0]) < ((int64_t)x[2]))) {
        return ((int)0);
      }
      return ((int)0);
    }
  }
  if ((((int64_t)x[2]) < ((int64_t)x[3]))) {
    {
      int answer = ((int)lb5_dot2(v));
      if ((((int)answer) != ((int)0))) {
        return ((int)answer);
      }
    }
    {
      int answer = ((int)lb11_dot2(v));
      if ((((int)answer) != ((int)0))) {
        return ((int)answer);
      }
    }
    if ((((int64_t)x[0]) < ((int64_t)x[1]))) {
      if ((((int64_t)x[0]) < ((int64_t)x[3]))) {
        {
          int answer = ((int)lb1_dot2(v));
          if ((((int)answer) != ((int)0))) {
            return ((int)answer);
          }
        }
        {
          int answer = ((int)lb6_dot2(v));
          if ((((int)answer) != ((int)0))) {
            return ((int)answer);
          }
        }
        if ((((int64_t)x[1]) < ((int64_t)x[3]))) {
          return ((int)0);
        }
        return ((int)0);
      }
    }
    if ((((int64_t)x[1]) < ((int64_t)x[3]))) {
      {
        int answer = ((int)lb3_dot2(v));
        if ((((int)answer) != ((int)0))) {
          return ((int)answer);
        }
      }
      {
        int answer = ((int)lb9_dot2(v));
        if ((((int)answer) != ((int)0))) {
          return ((int)answer);
        }
      }
      if ((((int64_t)x[0]) < ((int64_t)x[3]))) {
        return ((int)0);
      }
      return ((int)0);
    }
    {
      int answer = ((int)lb7_dot2(v));
      if ((((int)answer) != ((int)0))) {
        return ((int)answer);
      }
    }
    {
      int answer = ((int)lb12_dot2(v));
      if ((((int)answer) != ((int)0))) {
        return ((int)answer);
      }
    }
    if ((((int64_t)x[0]) < ((int64_t)x[1]))) {
      {
        int answer = ((int)lb1_dot2(v));
        if ((((int)answer) != ((int)0))) {
          return ((int)answer);
        }
      }
      {
        int answer = ((int)lb6_dot2(v));
        if ((((int)answer) != ((int)0))) {
          return ((int)answer);
        }
      }
      return ((int)0);
    }
    {
      int answer = ((int)lb3_dot2(v));
      if ((((int)answer) != ((int)0))) {
        return ((int)answer);
      }
    }
    {
      int answer = ((int)lb9_dot2(v));
      if ((((int)answer) != ((int)0))) {
        return ((int)answer);
      }
    }
    return ((int)0);
  }
  {
    int answer = ((int)lb7_dot2(v));
    if ((((int)answer) != ((int)0))) {
      return ((int)answer);
    }
  }
  {
    int answer = ((int)lb12_dot2(v));
    if ((((int)answer) != ((int)0))) {
      return ((int)answer);
    }
  }
  if ((((int64_t)x[0]) < ((int64_t)x[1]))) {
    if ((((int64_t)x[0]) < ((int64_t)x[2]))) {
      {
        int answer = ((int)lb1_dot2(v));
        if ((((int)answer) != ((int)0))) {
          return ((int)answer);
        }
      }
      {
        int answer = ((int)lb8_dot2(v));
        if ((((int)answer) != ((int)0))) {
          return ((int)answer);
        }
      }
      if ((((int64_t)x[1]) < ((int64_t)x[2]))) {
        return ((int)0);
      }
      return ((int)0);
    }
  }
  if ((((int64_t)x[1]) < ((int64_t)x[2]))) {
    {
      int answer = ((int)lb3_dot2(v));
      if ((((int)answer) != ((int)0))) {
        return ((int)answer);
      }
    }
    {
      int answer = ((int)lb10_dot2(v));
      if ((((int)answer) != ((int)0))) {
        return ((int)answer);
      }
    }
    if ((((int64_t)x[0]) < ((int64_t)x[2]))) {
      return ((int)0);
    }
    return ((int)0);
  }
  {
    int answer = ((int)lb5_dot2(v));
    if ((((int)answer) != ((int)0))) {
      return ((int)answer);
    }
  }
  {
    int answer = ((int)lb11_dot2(v));
    if ((((int)answer) != ((int)0))) {
      return ((int)answer);
    }
  }
  if ((((int64_t)x[0]) < ((int64_t)x[1]))) {
    {
      int answer = ((int)lb1_dot2(v));
      if ((((int)answer) != ((int)0))) {
        return ((int)answer);
      }
    }
    {
      int answer = ((int)lb8_dot2(v));
      if ((((int)answer) != ((int)0))) {
        return ((int)answer);
      }
    }
    return ((int)0);
  }
  {
    int answer = ((int)lb3_dot2(v));
    if ((((int)answer) != ((int)0))) {
      return ((int)answer);
    }
  }
  {
    int answer = ((int)lb10_dot2(v));
    if ((((int)answer) != ((int)0))) {
      return ((int)answer);
    }
  }
  return ((int)0);
}

static int lb0_compare_line2(const int64_t *v) {
  int64_t n0 = ((int64_t)v[2]);
  int64_t n1 = ((int64_t)v[0]);
  int64_t n2 = (((int64_t)n0) - ((int64_t)n1));
  int64_t n3 = ((int64_t)v[5]);
  int64_t n4 = ((int64_t)v[7]);
  int64_t n5 = (((int64_t)n3) - ((int64_t)n4));
  int64_t n6 = (((int64_t)n2) * ((int64_t)n5));
  int64_t n7 = ((int64_t)v[3]);
  int64_t n8 = ((int64_t)v[1]);
  int64_t n9 = (((int64_t)n7) - ((int64_t)n8));
  int64_t n10 = ((int64_t)v[4]);
  int64_t n11 = ((int64_t)v[6]);
  int64_t n12 = (((int64_t)n10) - ((int64_t)n11));
  int64_t n13 = (((int64_t)n9) * ((int64_t)n12));
  int64_t n14 = (((int64_t)n6) - ((int64_t)n13));
  return (((int)(((int64_t)n14) > ((int64_t)0))) - ((int)(((int64_t)n14) < ((int64_t)0))));
}

static int lb1_compare_line2(const int64_t *v) {
  int64_t n0 = ((int64_t)v[4]);
  int64_t n1 = ((int64_t)v[6]);
  int64_t n2 = (-((int64_t)n1));
  int64_t n3 = (((int64_t)n0) + ((int64_t)n2));
  return (((int)(((int64_t)n3) > ((int64_t)0))) - ((int)(((int64_t)n3) < ((int64_t)0))));
}

static int lb2_compare_line2(const int64_t *v) {
  int64_t n0 = ((int64_t)v[5]);
  int64_t n1 = (-((int64_t)n0));
  int64_t n2 = ((int64_t)v[7]);
  int64_t n3 = (((int64_t)n1) + ((int64_t)n2));
  return (((int)(((int64_t)n3) > ((int64_t)0))) - ((int)(((int64_t)n3) < ((int64_t)0))));
}

static int lb3_compare_line2(const int64_t *v) {
  int64_t n0 = ((int64_t)v[4]);
  int64_t n1 = (-((int64_t)n0));
  int64_t n2 = ((int64_t)v[6]);
  int64_t n3 = (((int64_t)n1) + ((int64_t)n2));
  return (((int)(((int64_t)n3) > ((int64_t)0))) - ((int)(((int64_t)n3) < ((int64_t)0))));
}

static int lb4_compare_line2(const int64_t *v) {
  int64_t n0 = ((int64_t)v[5]);
  int64_t n1 = ((int64_t)v[7]);
  int64_t n2 = (-((int64_t)n1));
  int64_t n3 = (((int64_t)n0) + ((int64_t)n2));
  return (((int)(((int64_t)n3) > ((int64_t)0))) - ((int)(((int64_t)n3) < ((int64_t)0))));
}

static int lb5_compare_line2(const int64_t *v) {
  int64_t n0 = ((int64_t)v[0]);
  int64_t n1 = (-((int64_t)n0));
  int64_t n2 = ((int64_t)v[2]);
  int64_t n3 = (((int64_t)n1) + ((int64_t)n2));
  return (((int)(((int64_t)n3) > ((int64_t)0))) - ((int)(((int64_t)n3) < ((int64_t)0))));
}

static int lb6_compare_line2(const int64_t *v) {
  if (((int)0)) {
    return ((int)v[0]);
  }
  int64_t n0 = ((int64_t)(-((int64_t)1)));
  return (((int)(((int64_t)n0) > ((int64_t)0))) - ((int)(((int64_t)n0) < ((int64_t)0))));
}

static int lb7_compare_line2(const int64_t *v) {
  int64_t n0 = ((int64_t)v[0]);
  int64_t n1 = ((int64_t)v[2]);
  int64_t n2 = (-((int64_t)n1));
  int64_t n3 = (((int64_t)n0) + ((int64_t)n2));
  return (((int)(((int64_t)n3) > ((int64_t)0))) - ((int)(((int64_t)n3) < ((int64_t)0))));
}

static int lb8_compare_line2(const int64_t *v) {
  if (((int)0)) {
    return ((int)v[0]);
  }
  int64_t n0 = ((int64_t)((int64_t)1));
  return (((int)(((int64_t)n0) > ((int64_t)0))) - ((int)(((int64_t)n0) < ((int64_t)0))));
}

static int lb9_compare_line2(const int64_t *v) {
  if (((int)0)) {
    return ((int)v[0]);
  }
  int64_t n0 = ((int64_t)((int64_t)1));
  return (((int)(((int64_t)n0) > ((int64_t)0))) - ((int)(((int64_t)n0) < ((int64_t)0))));
}

static int lb10_compare_line2(const int64_t *v) {
  if (((int)0)) {
    return ((int)v[0]);
  }
  int64_t n0 = ((int64_t)(-((int64_t)1)));
  return (((int)(((int64_t)n0) > ((int64_t)0))) - ((int)(((int64_t)n0) < ((int64_t)0))));
}

static int lb11_compare_line2(const int64_t *v) {
  int64_t n0 = ((int64_t)v[1]);
  int64_t n1 = ((int64_t)v[3]);
  int64_t n2 = (-((int64_t)n1));
  int64_t n3 = (((int64_t)n0) + ((int64_t)n2));
  return (((int)(((int64_t)n3) > ((int64_t)0))) - ((int)(((int64_t)n3) < ((int64_t)0))));
}

static int lb12_compare_line2(const int64_t *v) {
  if (((int)0)) {
    return ((int)v[0]);
  }
  int64_t n0 = ((int64_t)((int64_t)1));
  return (((int)(((int64_t)n0) > ((int64_t)0))) - ((int)(((int64_t)n0) < ((int64_t)0))));
}

static int lb13_compare_line2(const int64_t *v) {
  if (((int)0)) {
    return ((int)v[0]);
  }
  int64_t n0 = ((int64_t)(-((int64_t)1)));
  return (((int)(((int64_t)n0) > ((int64_t)0))) - ((int)(((int64_t)n0) < ((int64_t)0))));
}

static int lb14_compare_line2(const int64_t *v) {
  int64_t n0 = ((int64_t)v[1]);
  int64_t n1 = (-((int64_t)n0));
  int64_t n2 = ((int64_t)v[3]);
  int64_t n3 = (((int64_t)n1) + ((int64_t)n2));
  return (((int)(((int64_t)n3) > ((int64_t)0))) - ((int)(((int64_t)n3) < ((int64_t)0))));
}

static int lb15_compare_line2(const int64_t *v) {
  if (((int)0)) {
    return ((int)v[0]);
  }
  int64_t n0 = ((int64_t)(-((int64_t)1)));
  return (((int)(((int64_t)n0) > ((int64_t)0))) - ((int)(((int64_t)n0) < ((int64_t)0))));
}

static int lb16_compare_line2(const int64_t *v) {
  if (((int)0)) {
    return ((int)v[0]);
  }
  int64_t n0 = ((int64_t)((int64_t)1));
  return (((int)(((int64_t)n0) > ((int64_t)0))) - ((int)(((int64_t)n0) < ((int64_t)0))));
}

int ln_compare_line2(const int64_t *x, const int64_t *v) {
  {
    int answer = ((int)lb0_compare_line2(v));
    if ((((int)answer) != ((int)0))) {
      return ((int)answer);
    }
  }
  if ((((int64_t)x[0]) < ((int64_t)x[1]))) {
    if ((((int64_t)x[0]) < ((int64_t)x[2]))) {
      if ((((int64_t)x[0]) < ((int64_t)x[3]))) {
        {
          int answer = ((int)lb1_compare_line2(v));
          if ((((int)answer) != ((int)0))) {
            return ((int)answer);
          }
        }
        {
          int answer = ((int)lb2_compare_line2(v));
          if ((((int)answer) != ((int)0))) {
            return ((int)answer);
          }
        }
        if ((((int64_t)x[1]) < ((int64_t)x[2]))) {
          if ((((int64_t)x[1]) < ((int64_t)x[3]))) {
            {
              int answer = ((int)lb3_compare_line2(v));
              if ((((int)answer) != ((int)0))) {
                return ((int)answer);
              }
            }
            {
              int answer = ((int)lb4_compare_line2(v));
              if ((((int)answer) != ((int)0))) {
                return ((int)answer);
              }
            }
            if ((((int64_t)x[2]) < ((int64_t)x[3]))) {
              {
                int answer = ((int)lb5_compare_line2(v));
                if ((((int)answer) != ((int)0))) {
                  return ((int)answer);
                }
              }
              {
                int answer = ((int)lb6_compare_line2(v));
                if ((((int)answer) != ((int)0))) {
                  return ((int)answer);
                }
              }
              return ((int)0);
            }
            {
              int answer = ((int)lb7_compare_line2(v));
              if ((((int)answer) != ((int)0))) {
                return ((int)answer);
              }
            }
            {
              int answer = ((int)lb8_compare_line2(v));
              if ((((int)answer) != ((int)0))) {
                return ((int)answer);
              }
            }
            return ((int)0);
          }
        }
        if ((((int64_t)x[2]) < ((int64_t)x[3]))) {
          {
            int answer = ((int)lb5_compare_line2(v));
            if ((((int)answer) != ((int)0))) {
              return ((int)answer);
            }
          }
          {
            int answer = ((int)lb6_compare_line2(v));
            if ((((int)answer) != ((int)0))) {
              return ((int)answer);
            }
          }
          if ((((int64_t)x[1]) < ((int64_t)x[3]))) {
            return ((int)0);
          }
          return ((int)0);
        }
        {
          int answer = ((int)lb7_compare_line2(v));
          if ((((int)answer) != ((int)0))) {
            return ((int)answer);
          }
        }
        {
          int answer = ((int)lb8_compare_line2(v));
          if ((((int)answer) != ((int)0))) {
            return ((int)answer);
          }
        }
        if ((((int64_t)x[1]) < ((int64_t)x[2]))) {
          return ((int)0);
        }
        return ((int)0);
      }
    }
  }
  if ((((int64_t)x[1]) < ((int64_t)x[2]))) {
    if ((((int64_t)x[1]) < ((int64_t)x[3]))) {
      {
        int answer = ((int)lb3_compare_line2(v));
        if ((((int)answer) != ((int)0))) {
          return ((int)answer);
        }
      }
      {
        int answer = ((int)lb4_compare_line2(v));
        if ((((int)answer) != ((int)0))) {
          return ((int)answer);
        }
      }
      if ((((int64_t)x[0]) < ((int64_t)x[2]))) {
        if ((((int64_t)x[0]) < ((int64_t)x[3]))) {
          {
            int answer = ((int)lb1_compare_line2(v));
            if ((((int)answer) != ((int)0))) {
              return ((int)answer);
            }
          }
          {
            int answer = ((int)lb2_compare_line2(v));
            if ((((int)answer) != ((int)0))) {
              return ((int)answer);
            }
          }
          if ((((int64_t)x[2]) < ((int64_t)x[3]))) {
            {
              int answer = ((int)lb5_compare_line2(v));
              if ((((int)answer) != ((int)0))) {
                return ((int)answer);
              }
            }
            {
              int answer = ((int)lb9_compare_line2(v));
              if ((((int)answer) != ((int)0))) {
                return ((int)answer);
              }
            }
            return ((int)0);
          }
          {
            int answer = ((int)lb7_compare_line2(v));
            if ((((int)answer) != ((int)0))) {
              return ((int)answer);
            }
          }
          {
            int answer = ((int)lb10_compare_line2(v));
            if ((((int)answer) != ((int)0))) {
              return ((int)answer);
            }
          }
          return ((int)0);
        }
      }
      if ((((int64_t)x[2]) < ((int64_t)x[3]))) {
        {
          int answer = ((int)lb5_compare_line2(v));
          if ((((int)answer) != ((int)0))) {
            return ((int)answer);
          }
        }
        {
          int answer = ((int)lb9_compare_line2(v));
          if ((((int)answer) != ((int)0))) {
            return ((int)answer);
          }
        }
        if ((((int64_t)x[0]) < ((int64_t)x[3]))) {
          return ((int)0);
        }
        return ((int)0);
      }
      {
        int answer = ((int)lb7_compare_line2(v));
        if ((((int)answer) != ((int)0))) {
          return ((int)answer);
        }
      }
      {
        int answer = ((int)lb10_compare_line2(v));
        if ((((int)answer) != ((int)0))) {
          return ((int)answer);
        }
      }
      if ((((int64_t)x[0]) < ((int64_t)x[2]))) {
        return ((int)0);
      }
      return ((int)0);
    }
  }
  if ((((int64_t)x[2]) < ((int64_t)x[3]))) {
    {
      int answer = ((int)lb5_compare_line2(v));
      if ((((int)answer) != ((int)0))) {
        return ((int)answer);
      }
    }
    {
      int answer = ((int)lb11_compare_line2(v));
      if ((((int)answer) != ((int)0))) {
        return ((int)answer);
      }
    }
    if ((((int64_t)x[0]) < ((int64_t)x[1]))) {
      if ((((int64_t)x[0]) < ((int64_t)x[3]))) {
        {
          int answer = ((int)lb1_compare_line2(v));
          if ((((int)answer) != ((int)0))) {
            return ((int)answer);
          }
        }
        {
          int answer = ((int)lb12_compare_line2(v));
          if ((((int)answer) != ((int)0))) {
            return ((int)answer);
          }
        }
        if ((((int64_t)x[1]) < ((int64_t)x[3]))) {
          return ((int)0);
        }
        return ((int)0);
      }
    }
    if ((((int64_t)x[1]) < ((int64_t)x[3]))) {
      {
        int answer = ((int)lb3_compare_line2(v));
        if ((((int)answer) != ((int)0))) {
          return ((int)answer);
        }
      }
      {
        int answer = ((int)lb13_compare_line2(v));
        if ((((int)answer) != ((int)0))) {
          return ((int)answer);
        }
      }
      if ((((int64_t)x[0]) < ((int64_t)x[3]))) {
        return ((int)0);
      }
      return ((int)0);
    }
    {
      int answer = ((int)lb7_compare_line2(v));
      if ((((int)answer) != ((int)0))) {
        return ((int)answer);
      }
    }
    {
      int answer = ((int)lb14_compare_line2(v));
      if ((((int)answer) != ((int)0))) {
        return ((int)answer);
      }
    }
    if ((((int64_t)x[0]) < ((int64_t)x[1]))) {
      {
        int answer = ((int)lb1_compare_line2(v));
        if ((((int)answer) != ((int)0))) {
          return ((int)answer);
        }
      }
      {
        int answer = ((int)lb12_compare_line2(v));
        if ((((int)answer) != ((int)0))) {
          return ((int)answer);
        }
      }
      return ((int)0);
    }
    {
      int answer = ((int)lb3_compare_line2(v));
      if ((((int)answer) != ((int)0))) {
        return ((int)answer);
      }
    }
    {
      int answer = ((int)lb13_compare_line2(v));
      if ((((int)answer) != ((int)0))) {
        return ((int)answer);
      }
    }
    return ((int)0);
  }
  {
    int answer = ((int)lb7_compare_line2(v));
    if ((((int)answer) != ((int)0))) {
      return ((int)answer);
    }
  }
  {
    int answer = ((int)lb14_compare_line2(v));
    if ((((int)answer) != ((int)0))) {
      return ((int)answer);
    }
  }
  if ((((int64_t)x[0]) < ((int64_t)x[1]))) {
    if ((((int64_t)x[0]) < ((int64_t)x[2]))) {
      {
        int answer = ((int)lb1_compare_line2(v));
        if ((((int)answer) != ((int)0))) {
          return ((int)answer);
        }
      }
      {
        int answer = ((int)lb15_compare_line2(v));
        if ((((int)answer) != ((int)0))) {
          return ((int)answer);
        }
      }
      if ((((int64_t)x[1]) < ((int64_t)x[2]))) {
        return ((int)0);
      }
      return ((int)0);
    }
  }
  if ((((int64_t)x[1]) < ((int64_t)x[2]))) {
    {
      int answer = ((int)lb3_compare_line2(v));
      if ((((int)answer) != ((int)0))) {
        return ((int)answer);
      }
    }
    {
      int answer = ((int)lb16_compare_line2(v));
      if ((((int)answer) != ((int)0))) {
        return ((int)answer);
      }
    }
    if ((((int64_t)x[0]) < ((int64_t)x[2]))) {
      return ((int)0);
    }
    return ((int)0);
  }
  {
    int answer = ((int)lb5_compare_line2(v));
    if ((((int)answer) != ((int)0))) {
      return ((int)answer);
    }
  }
  {
    int answer = ((int)lb11_compare_line2(v));
    if ((((int)answer) != ((int)0))) {
      return ((int)answer);
    }
  }
  if ((((int64_t)x[0]) < ((int64_t)x[1]))) {
    {
      int answer = ((int)lb1_compare_line2(v));
      if ((((int)answer) != ((int)0))) {
        return ((int)answer);
      }
    }
    {
      int answer = ((int)lb15_compare_line2(v));
      if ((((int)answer) != ((int)0))) {
        return ((int)answer);
      }
    }
    return ((int)0);
  }
  {
    int answer = ((int)lb3_compare_line2(v));
    if ((((int)answer) != ((int)0))) {
      return ((int)answer);
    }
  }
  {
    int answer = ((int)lb16_compare_line2(v));
    if ((((int)answer) != ((int)0))) {
      return ((int)answer);
    }
  }
  return ((int)0);
}
