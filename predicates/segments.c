#include <stdint.h>

static int lb0_side_a2(const int64_t *v) {
  int64_t n0 = ((int64_t)v[2]);
  int64_t n1 = ((int64_t)v[0]);
  int64_t n2 = (((int64_t)n0) - ((int64_t)n1));
  int64_t n3 = ((int64_t)v[5]);
  int64_t n4 = ((int64_t)v[1]);
  int64_t n5 = (((int64_t)n3) - ((int64_t)n4));
  int64_t n6 = (((int64_t)n2) * ((int64_t)n5));
  int64_t n7 = ((int64_t)v[3]);
  int64_t n8 = ((int64_t)v[1]);
  int64_t n9 = (((int64_t)n7) - ((int64_t)n8));
  int64_t n10 = ((int64_t)v[4]);
  int64_t n11 = ((int64_t)v[0]);
  int64_t n12 = (((int64_t)n10) - ((int64_t)n11));
  int64_t n13 = (((int64_t)n9) * ((int64_t)n12));
  int64_t n14 = (((int64_t)n6) - ((int64_t)n13));
  return (((int)(((int64_t)n14) > ((int64_t)0))) - ((int)(((int64_t)n14) < ((int64_t)0))));
}

static int lb1_side_a2(const int64_t *v) {
  int64_t n0 = ((int64_t)v[0]);
  int64_t n1 = ((int64_t)v[4]);
  int64_t n2 = (-((int64_t)n1));
  int64_t n3 = (((int64_t)n0) + ((int64_t)n2));
  return (((int)(((int64_t)n3) > ((int64_t)0))) - ((int)(((int64_t)n3) < ((int64_t)0))));
}

static int lb2_side_a2(const int64_t *v) {
  int64_t n0 = ((int64_t)v[1]);
  int64_t n1 = (-((int64_t)n0));
  int64_t n2 = ((int64_t)v[5]);
  int64_t n3 = (((int64_t)n1) + ((int64_t)n2));
  return (((int)(((int64_t)n3) > ((int64_t)0))) - ((int)(((int64_t)n3) < ((int64_t)0))));
}

static int lb3_side_a2(const int64_t *v) {
  int64_t n0 = ((int64_t)v[2]);
  int64_t n1 = (-((int64_t)n0));
  int64_t n2 = ((int64_t)v[4]);
  int64_t n3 = (((int64_t)n1) + ((int64_t)n2));
  return (((int)(((int64_t)n3) > ((int64_t)0))) - ((int)(((int64_t)n3) < ((int64_t)0))));
}

static int lb4_side_a2(const int64_t *v) {
  if (((int)0)) {
    return ((int)v[0]);
  }
  int64_t n0 = ((int64_t)(-((int64_t)1)));
  return (((int)(((int64_t)n0) > ((int64_t)0))) - ((int)(((int64_t)n0) < ((int64_t)0))));
}

static int lb5_side_a2(const int64_t *v) {
  int64_t n0 = ((int64_t)v[0]);
  int64_t n1 = (-((int64_t)n0));
  int64_t n2 = ((int64_t)v[2]);
  int64_t n3 = (((int64_t)n1) + ((int64_t)n2));
  return (((int)(((int64_t)n3) > ((int64_t)0))) - ((int)(((int64_t)n3) < ((int64_t)0))));
}

static int lb6_side_a2(const int64_t *v) {
  int64_t n0 = ((int64_t)v[1]);
  int64_t n1 = ((int64_t)v[3]);
  int64_t n2 = (-((int64_t)n1));
  int64_t n3 = (((int64_t)n0) + ((int64_t)n2));
  return (((int)(((int64_t)n3) > ((int64_t)0))) - ((int)(((int64_t)n3) < ((int64_t)0))));
}

static int lb7_side_a2(const int64_t *v) {
  if (((int)0)) {
    return ((int)v[0]);
  }
  int64_t n0 = ((int64_t)(-((int64_t)1)));
  return (((int)(((int64_t)n0) > ((int64_t)0))) - ((int)(((int64_t)n0) < ((int64_t)0))));
}

int ln_side_a2(const int64_t *x, const int64_t *v) {
  {
    int answer = ((int)lb0_side_a2(v));
    if ((((int)answer) != ((int)0))) {
      return ((int)answer);
    }
  }
  if ((((int64_t)x[0]) < ((int64_t)x[1]))) {
    {
      int answer = ((int)lb1_side_a2(v));
      if ((((int)answer) != ((int)0))) {
        return ((int)answer);
      }
    }
    {
      int answer = ((int)lb2_side_a2(v));
      if ((((int)answer) != ((int)0))) {
        return ((int)answer);
      }
    }
    {
      int answer = ((int)lb3_side_a2(v));
      if ((((int)answer) != ((int)0))) {
        return ((int)answer);
      }
    }
    {
      int answer = ((int)lb4_side_a2(v));
      if ((((int)answer) != ((int)0))) {
        return ((int)answer);
      }
    }
    return ((int)0);
  }
  {
    int answer = ((int)lb5_side_a2(v));
    if ((((int)answer) != ((int)0))) {
      return ((int)answer);
    }
  }
  {
    int answer = ((int)lb6_side_a2(v));
    if ((((int)answer) != ((int)0))) {
      return ((int)answer);
    }
  }
  {
    int answer = ((int)lb1_side_a2(v));
    if ((((int)answer) != ((int)0))) {
      return ((int)answer);
    }
  }
  {
    int answer = ((int)lb7_side_a2(v));
    if ((((int)answer) != ((int)0))) {
      return ((int)answer);
    }
  }
  return ((int)0);
}

static int lb0_side_b2(const int64_t *v) {
  int64_t n0 = ((int64_t)v[2]);
  int64_t n1 = ((int64_t)v[0]);
  int64_t n2 = (((int64_t)n0) - ((int64_t)n1));
  int64_t n3 = ((int64_t)v[7]);
  int64_t n4 = ((int64_t)v[1]);
  int64_t n5 = (((int64_t)n3) - ((int64_t)n4));
  int64_t n6 = (((int64_t)n2) * ((int64_t)n5));
  int64_t n7 = ((int64_t)v[3]);
  int64_t n8 = ((int64_t)v[1]);
  int64_t n9 = (((int64_t)n7) - ((int64_t)n8));
  int64_t n10 = ((int64_t)v[6]);
  int64_t n11 = ((int64_t)v[0]);
  int64_t n12 = (((int64_t)n10) - ((int64_t)n11));
  int64_t n13 = (((int64_t)n9) * ((int64_t)n12));
  int64_t n14 = (((int64_t)n6) - ((int64_t)n13));
  return (((int)(((int64_t)n14) > ((int64_t)0))) - ((int)(((int64_t)n14) < ((int64_t)0))));
}

static int lb1_side_b2(const int64_t *v) {
  int64_t n0 = ((int64_t)v[0]);
  int64_t n1 = ((int64_t)v[6]);
  int64_t n2 = (-((int64_t)n1));
  int64_t n3 = (((int64_t)n0) + ((int64_t)n2));
  return (((int)(((int64_t)n3) > ((int64_t)0))) - ((int)(((int64_t)n3) < ((int64_t)0))));
}

static int lb2_side_b2(const int64_t *v) {
  int64_t n0 = ((int64_t)v[1]);
  int64_t n1 = (-((int64_t)n0));
  int64_t n2 = ((int64_t)v[7]);
  int64_t n3 = (((int64_t)n1) + ((int64_t)n2));
  return (((int)(((int64_t)n3) > ((int64_t)0))) - ((int)(((int64_t)n3) < ((int64_t)0))));
}

static int lb3_side_b2(const int64_t *v) {
  int64_t n0 = ((int64_t)v[2]);
  int64_t n1 = (-((int64_t)n0));
  int64_t n2 = ((int64_t)v[6]);
  int64_t n3 = (((int64_t)n1) + ((int64_t)n2));
  return (((int)(((int64_t)n3) > ((int64_t)0))) - ((int)(((int64_t)n3) < ((int64_t)0))));
}

static int lb4_side_b2(const int64_t *v) {
  if (((int)0)) {
    return ((int)v[0]);
  }
  int64_t n0 = ((int64_t)(-((int64_t)1)));
  return (((int)(((int64_t)n0) > ((int64_t)0))) - ((int)(((int64_t)n0) < ((int64_t)0))));
}

static int lb5_side_b2(const int64_t *v) {
  int64_t n0 = ((int64_t)v[0]);
  int64_t n1 = (-((int64_t)n0));
  int64_t n2 = ((int64_t)v[2]);
  int64_t n3 = (((int64_t)n1) + ((int64_t)n2));
  return (((int)(((int64_t)n3) > ((int64_t)0))) - ((int)(((int64_t)n3) < ((int64_t)0))));
}

static int lb6_side_b2(const int64_t *v) {
  int64_t n0 = ((int64_t)v[1]);
  int64_t n1 = ((int64_t)v[3]);
  int64_t n2 = (-((int64_t)n1));
  int64_t n3 = (((int64_t)n0) + ((int64_t)n2));
  return (((int)(((int64_t)n3) > ((int64_t)0))) - ((int)(((int64_t)n3) < ((int64_t)0))));
}

static int lb7_side_b2(const int64_t *v) {
  if (((int)0)) {
    return ((int)v[0]);
  }
  int64_t n0 = ((int64_t)(-((int64_t)1)));
  return (((int)(((int64_t)n0) > ((int64_t)0))) - ((int)(((int64_t)n0) < ((int64_t)0))));
}

int ln_side_b2(const int64_t *x, const int64_t *v) {
  {
    int answer = ((int)lb0_side_b2(v));
    if ((((int)answer) != ((int)0))) {
      return ((int)answer);
    }
  }
  if ((((int64_t)x[0]) < ((int64_t)x[1]))) {
    {
      int answer = ((int)lb1_side_b2(v));
      if ((((int)answer) != ((int)0))) {
        return ((int)answer);
      }
    }
    {
      int answer = ((int)lb2_side_b2(v));
      if ((((int)answer) != ((int)0))) {
        return ((int)answer);
      }
    }
    {
      int answer = ((int)lb3_side_b2(v));
      if ((((int)answer) != ((int)0))) {
        return ((int)answer);
      }
    }
    {
      int answer = ((int)lb4_side_b2(v));
      if ((((int)answer) != ((int)0))) {
        return ((int)answer);
      }
    }
    return ((int)0);
  }
  {
    int answer = ((int)lb5_side_b2(v));
    if ((((int)answer) != ((int)0))) {
      return ((int)answer);
    }
  }
  {
    int answer = ((int)lb6_side_b2(v));
    if ((((int)answer) != ((int)0))) {
      return ((int)answer);
    }
  }
  {
    int answer = ((int)lb1_side_b2(v));
    if ((((int)answer) != ((int)0))) {
      return ((int)answer);
    }
  }
  {
    int answer = ((int)lb7_side_b2(v));
    if ((((int)answer) != ((int)0))) {
      return ((int)answer);
    }
  }
  return ((int)0);
}

static int lb0_turn2(const int64_t *v) {
  int64_t n0 = ((int64_t)v[2]);
  int64_t n1 = ((int64_t)v[0]);
  int64_t n2 = (((int64_t)n0) - ((int64_t)n1));
  int64_t n3 = ((int64_t)v[7]);
  int64_t n4 = ((int64_t)v[5]);
  int64_t n5 = (((int64_t)n3) - ((int64_t)n4));
  int64_t n6 = (((int64_t)n2) * ((int64_t)n5));
  int64_t n7 = ((int64_t)v[3]);
  int64_t n8 = ((int64_t)v[1]);
  int64_t n9 = (((int64_t)n7) - ((int64_t)n8));
  int64_t n10 = ((int64_t)v[6]);
  int64_t n11 = ((int64_t)v[4]);
  int64_t n12 = (((int64_t)n10) - ((int64_t)n11));
  int64_t n13 = (((int64_t)n9) * ((int64_t)n12));
  int64_t n14 = (((int64_t)n6) - ((int64_t)n13));
  return (((int)(((int64_t)n14) > ((int64_t)0))) - ((int)(((int64_t)n14) < ((int64_t)0))));
}

static int lb1_turn2(const int64_t *v) {
  int64_t n0 = ((int64_t)v[4]);
  int64_t n1 = ((int64_t)v[6]);
  int64_t n2 = (-((int64_t)n1));
  int64_t n3 = (((int64_t)n0) + ((int64_t)n2));
  return (((int)(((int64_t)n3) > ((int64_t)0))) - ((int)(((int64_t)n3) < ((int64_t)0))));
}

static int lb2_turn2(const int64_t *v) {
  int64_t n0 = ((int64_t)v[5]);
  int64_t n1 = (-((int64_t)n0));
  int64_t n2 = ((int64_t)v[7]);
  int64_t n3 = (((int64_t)n1) + ((int64_t)n2));
  return (((int)(((int64_t)n3) > ((int64_t)0))) - ((int)(((int64_t)n3) < ((int64_t)0))));
}

static int lb3_turn2(const int64_t *v) {
  int64_t n0 = ((int64_t)v[4]);
  int64_t n1 = (-((int64_t)n0));
  int64_t n2 = ((int64_t)v[6]);
  int64_t n3 = (((int64_t)n1) + ((int64_t)n2));
  return (((int)(((int64_t)n3) > ((int64_t)0))) - ((int)(((int64_t)n3) < ((int64_t)0))));
}

static int lb4_turn2(const int64_t *v) {
  int64_t n0 = ((int64_t)v[5]);
  int64_t n1 = ((int64_t)v[7]);
  int64_t n2 = (-((int64_t)n1));
  int64_t n3 = (((int64_t)n0) + ((int64_t)n2));
  return (((int)(((int64_t)n3) > ((int64_t)0))) - ((int)(((int64_t)n3) < ((int64_t)0))));
}

static int lb5_turn2(const int64_t *v) {
  int64_t n0 = ((int64_t)v[0]);
  int64_t n1 = (-((int64_t)n0));
  int64_t n2 = ((int64_t)v[2]);
  int64_t n3 = (((int64_t)n1) + ((int64_t)n2));
  return (((int)(((int64_t)n3) > ((int64_t)0))) - ((int)(((int64_t)n3) < ((int64_t)0))));
}

static int lb6_turn2(const int64_t *v) {
  if (((int)0)) {
    return ((int)v[0]);
  }
  int64_t n0 = ((int64_t)((int64_t)1));
  return (((int)(((int64_t)n0) > ((int64_t)0))) - ((int)(((int64_t)n0) < ((int64_t)0))));
}

int la_turn2(const int64_t *x, const int64_t *v) {
  {
    int answer = ((int)lb0_turn2(v));
    if ((((int)answer) != ((int)0))) {
      return ((int)answer);
    }
  }
  {
    int answer = ((int)lb1_turn2(v));
    if ((((int)answer) != ((int)0))) {
      return ((int)answer);
    }
  }
  {
    int answer = ((int)lb2_turn2(v));
    if ((((int)answer) != ((int)0))) {
      return ((int)answer);
    }
  }
  {
    int answer = ((int)lb3_turn2(v));
    if ((((int)answer) != ((int)0))) {
      return ((int)answer);
    }
  }
  {
    int answer = ((int)lb4_turn2(v));
    if ((((int)answer) != ((int)0))) {
      return ((int)answer);
    }
  }
  {
    int answer = ((int)lb5_turn2(v));
    if ((((int)answer) != ((int)0))) {
      return ((int)answer);
    }
  }
  {
    int answer = ((int)lb6_turn2(v));
    if ((((int)answer) != ((int)0))) {
      return ((int)answer);
    }
  }
  if ((((int64_t)x[0]) < ((int64_t)x[1]))) {
    return ((int)0);
  }
  return ((int)0);
}

static int lb0_crossings2(const int64_t *v) {
  int64_t n0 = ((int64_t)v[2]);
  int64_t n1 = ((int64_t)v[0]);
  int64_t n2 = (((int64_t)n0) - ((int64_t)n1));
  int64_t n3 = ((int64_t)n2);
  int64_t n4 = ((int64_t)v[3]);
  int64_t n5 = ((int64_t)v[1]);
  int64_t n6 = (((int64_t)n4) - ((int64_t)n5));
  int64_t n7 = ((int64_t)n6);
  int64_t n8 = ((int64_t)v[6]);
  int64_t n9 = ((int64_t)v[4]);
  int64_t n10 = (((int64_t)n8) - ((int64_t)n9));
  int64_t n11 = ((int64_t)n10);
  int64_t n12 = ((int64_t)v[7]);
  int64_t n13 = ((int64_t)v[5]);
  int64_t n14 = (((int64_t)n12) - ((int64_t)n13));
  int64_t n15 = ((int64_t)n14);
  int64_t n16 = ((int64_t)v[10]);
  int64_t n17 = ((int64_t)v[8]);
  int64_t n18 = (((int64_t)n16) - ((int64_t)n17));
  int64_t n19 = ((int64_t)n18);
  int64_t n20 = ((int64_t)v[11]);
  int64_t n21 = ((int64_t)v[9]);
  int64_t n22 = (((int64_t)n20) - ((int64_t)n21));
  int64_t n23 = ((int64_t)n22);
  int64_t n24 = ((int64_t)v[4]);
  int64_t n25 = ((int64_t)v[0]);
  int64_t n26 = (((int64_t)n24) - ((int64_t)n25));
  int64_t n27 = ((int64_t)n15);
  int64_t n28 = (((int64_t)n26) * ((int64_t)n27));
  int64_t n29 = ((int64_t)v[5]);
  int64_t n30 = ((int64_t)v[1]);
  int64_t n31 = (((int64_t)n29) - ((int64_t)n30));
  int64_t n32 = ((int64_t)n11);
  int64_t n33 = (((int64_t)n31) * ((int64_t)n32));
  int64_t n34 = (((int64_t)n28) - ((int64_t)n33));
  int64_t n35 = ((int64_t)n3);
  int64_t n36 = ((int64_t)n23);
  int64_t n37 = (((int64_t)n35) * ((int64_t)n36));
  int64_t n38 = ((int64_t)n7);
  int64_t n39 = ((int64_t)n19);
  int64_t n40 = (((int64_t)n38) * ((int64_t)n39));
  int64_t n41 = (((int64_t)n37) - ((int64_t)n40));
  __int128 n42 = (((__int128)n34) * ((__int128)n41));
  int64_t n43 = ((int64_t)v[8]);
  int64_t n44 = ((int64_t)v[0]);
  int64_t n45 = (((int64_t)n43) - ((int64_t)n44));
  int64_t n46 = ((int64_t)n23);
  int64_t n47 = (((int64_t)n45) * ((int64_t)n46));
  int64_t n48 = ((int64_t)v[9]);
  int64_t n49 = ((int64_t)v[1]);
  int64_t n50 = (((int64_t)n48) - ((int64_t)n49));
  int64_t n51 = ((int64_t)n19);
  int64_t n52 = (((int64_t)n50) * ((int64_t)n51));
  int64_t n53 = (((int64_t)n47) - ((int64_t)n52));
  int64_t n54 = ((int64_t)n3);
  int64_t n55 = ((int64_t)n15);
  int64_t n56 = (((int64_t)n54) * ((int64_t)n55));
  int64_t n57 = ((int64_t)n7);
  int64_t n58 = ((int64_t)n11);
  int64_t n59 = (((int64_t)n57) * ((int64_t)n58));
  int64_t n60 = (((int64_t)n56) - ((int64_t)n59));
  __int128 n61 = (((__int128)n53) * ((__int128)n60));
  __int128 n62 = (((__int128)n42) - ((__int128)n61));
  return (((int)(((__int128)n62) > ((__int128)0))) - ((int)(((__int128)n62) < ((__int128)0))));
}

static int lb1_crossings2(const int64_t *v) {
  int64_t n0 = ((int64_t)v[0]);
  int64_t n1 = ((int64_t)v[4]);
  int64_t n2 = ((int64_t)v[9]);
  int64_t n3 = (-((int64_t)n2));
  int64_t n4 = ((int64_t)v[11]);
  int64_t n5 = (((int64_t)n3) + ((int64_t)n4));
  int64_t n6 = (((int64_t)n1) * ((int64_t)n5));
  int64_t n7 = ((int64_t)v[5]);
  int64_t n8 = ((int64_t)v[8]);
  int64_t n9 = ((int64_t)v[10]);
  int64_t n10 = (-((int64_t)n9));
  int64_t n11 = ((int64_t)n10);
  int64_t n12 = ((int64_t)n11);
  int64_t n13 = (((int64_t)n8) + ((int64_t)n12));
  int64_t n14 = ((int64_t)n13);
  int64_t n15 = ((int64_t)n14);
  int64_t n16 = (((int64_t)n7) * ((int64_t)n15));
  int64_t n17 = ((int64_t)v[6]);
  int64_t n18 = ((int64_t)v[9]);
  int64_t n19 = ((int64_t)v[11]);
  int64_t n20 = (-((int64_t)n19));
  int64_t n21 = ((int64_t)n20);
  int64_t n22 = ((int64_t)n21);
  int64_t n23 = (((int64_t)n18) + ((int64_t)n22));
  int64_t n24 = (((int64_t)n17) * ((int64_t)n23));
  int64_t n25 = ((int64_t)v[7]);
  int64_t n26 = ((int64_t)v[8]);
  int64_t n27 = (-((int64_t)n26));
  int64_t n28 = ((int64_t)v[10]);
  int64_t n29 = (((int64_t)n27) + ((int64_t)n28));
  int64_t n30 = ((int64_t)n29);
  int64_t n31 = ((int64_t)n30);
  int64_t n32 = (((int64_t)n25) * ((int64_t)n31));
  int64_t n33 = (((int64_t)n24) + ((int64_t)n32));
  int64_t n34 = (((int64_t)n16) + ((int64_t)n33));
  int64_t n35 = (((int64_t)n6) + ((int64_t)n34));
  __int128 n36 = (((__int128)n0) * ((__int128)n35));
  int64_t n37 = ((int64_t)v[4]);
  int64_t n38 = ((int64_t)v[7]);
  int64_t n39 = ((int64_t)n14);
  int64_t n40 = (((int64_t)n38) * ((int64_t)n39));
  int64_t n41 = ((int64_t)v[8]);
  int64_t n42 = ((int64_t)n21);
  int64_t n43 = (((int64_t)n41) * ((int64_t)n42));
  int64_t n44 = ((int64_t)v[9]);
  int64_t n45 = ((int64_t)v[10]);
  int64_t n46 = (((int64_t)n44) * ((int64_t)n45));
  int64_t n47 = (((int64_t)n43) + ((int64_t)n46));
  int64_t n48 = (((int64_t)n40) + ((int64_t)n47));
  __int128 n49 = (((__int128)n37) * ((__int128)n48));
  int64_t n50 = ((int64_t)v[5]);
  int64_t n51 = ((int64_t)v[6]);
  int64_t n52 = ((int64_t)n30);
  int64_t n53 = (((int64_t)n51) * ((int64_t)n52));
  __int128 n54 = (((__int128)n50) * ((__int128)n53));
  int64_t n55 = ((int64_t)v[6]);
  int64_t n56 = ((int64_t)v[8]);
  int64_t n57 = ((int64_t)v[11]);
  int64_t n58 = (((int64_t)n56) * ((int64_t)n57));
  int64_t n59 = ((int64_t)v[9]);
  int64_t n60 = ((int64_t)n11);
  int64_t n61 = (((int64_t)n59) * ((int64_t)n60));
  int64_t n62 = (((int64_t)n58) + ((int64_t)n61));
  __int128 n63 = (((__int128)n55) * ((__int128)n62));
  __int128 n64 = (((__int128)n54) + ((__int128)n63));
  __int128 n65 = (((__int128)n49) + ((__int128)n64));
  __int128 n66 = (((__int128)n36) + ((__int128)n65));
  return (((int)(((__int128)n66) > ((__int128)0))) - ((int)(((__int128)n66) < ((__int128)0))));
}

static int lb2_crossings2(const int64_t *v) {
  int64_t n0 = ((int64_t)v[1]);
  int64_t n1 = ((int64_t)v[4]);
  int64_t n2 = ((int64_t)v[9]);
  int64_t n3 = ((int64_t)v[11]);
  int64_t n4 = (-((int64_t)n3));
  int64_t n5 = ((int64_t)n4);
  int64_t n6 = ((int64_t)n5);
  int64_t n7 = (((int64_t)n2) + ((int64_t)n6));
  int64_t n8 = ((int64_t)n7);
  int64_t n9 = ((int64_t)n8);
  int64_t n10 = (((int64_t)n1) * ((int64_t)n9));
  int64_t n11 = ((int64_t)v[5]);
  int64_t n12 = ((int64_t)v[8]);
  int64_t n13 = (-((int64_t)n12));
  int64_t n14 = ((int64_t)v[10]);
  int64_t n15 = (((int64_t)n13) + ((int64_t)n14));
  int64_t n16 = (((int64_t)n11) * ((int64_t)n15));
  int64_t n17 = ((int64_t)v[6]);
  int64_t n18 = ((int64_t)v[9]);
  int64_t n19 = (-((int64_t)n18));
  int64_t n20 = ((int64_t)v[11]);
  int64_t n21 = (((int64_t)n19) + ((int64_t)n20));
  int64_t n22 = ((int64_t)n21);
  int64_t n23 = ((int64_t)n22);
  int64_t n24 = (((int64_t)n17) * ((int64_t)n23));
  int64_t n25 = ((int64_t)v[7]);
  int64_t n26 = ((int64_t)v[8]);
  int64_t n27 = ((int64_t)v[10]);
  int64_t n28 = (-((int64_t)n27));
  int64_t n29 = ((int64_t)n28);
  int64_t n30 = ((int64_t)n29);
  int64_t n31 = (((int64_t)n26) + ((int64_t)n30));
  int64_t n32 = (((int64_t)n25) * ((int64_t)n31));
  int64_t n33 = (((int64_t)n24) + ((int64_t)n32));
  int64_t n34 = (((int64_t)n16) + ((int64_t)n33));
  int64_t n35 = (((int64_t)n10) + ((int64_t)n34));
  __int128 n36 = (((__int128)n0) * ((__int128)n35));
  int64_t n37 = ((int64_t)v[4]);
  int64_t n38 = ((int64_t)v[7]);
  int64_t n39 = ((int64_t)n22);
  int64_t n40 = (((int64_t)n38) * ((int64_t)n39));
  __int128 n41 = (((__int128)n37) * ((__int128)n40));
  int64_t n42 = ((int64_t)v[5]);
  int64_t n43 = ((int64_t)v[6]);
  int64_t n44 = ((int64_t)n8);
  int64_t n45 = (((int64_t)n43) * ((int64_t)n44));
  int64_t n46 = ((int64_t)v[8]);
  int64_t n47 = ((int64_t)v[11]);
  int64_t n48 = (((int64_t)n46) * ((int64_t)n47));
  int64_t n49 = ((int64_t)v[9]);
  int64_t n50 = ((int64_t)n29);
  int64_t n51 = (((int64_t)n49) * ((int64_t)n50));
  int64_t n52 = (((int64_t)n48) + ((int64_t)n51));
  int64_t n53 = (((int64_t)n45) + ((int64_t)n52));
  __int128 n54 = (((__int128)n42) * ((__int128)n53));
  int64_t n55 = ((int64_t)v[7]);
  int64_t n56 = ((int64_t)v[8]);
  int64_t n57 = ((int64_t)n5);
  int64_t n58 = (((int64_t)n56) * ((int64_t)n57));
  int64_t n59 = ((int64_t)v[9]);
  int64_t n60 = ((int64_t)v[10]);
  int64_t n61 = (((int64_t)n59) * ((int64_t)n60));
  int64_t n62 = (((int64_t)n58) + ((int64_t)n61));
  __int128 n63 = (((__int128)n55) * ((__int128)n62));
  __int128 n64 = (((__int128)n54) + ((__int128)n63));
  __int128 n65 = (((__int128)n41) + ((__int128)n64));
  __int128 n66 = (((__int128)n36) + ((__int128)n65));
  return (((int)(((__int128)n66) > ((__int128)0))) - ((int)(((__int128)n66) < ((__int128)0))));
}

static int lb3_crossings2(const int64_t *v) {
  int64_t n0 = ((int64_t)v[2]);
  int64_t n1 = ((int64_t)v[4]);
  int64_t n2 = ((int64_t)v[9]);
  int64_t n3 = ((int64_t)v[11]);
  int64_t n4 = (-((int64_t)n3));
  int64_t n5 = ((int64_t)n4);
  int64_t n6 = ((int64_t)n5);
  int64_t n7 = (((int64_t)n2) + ((int64_t)n6));
  int64_t n8 = (((int64_t)n1) * ((int64_t)n7));
  int64_t n9 = ((int64_t)v[5]);
  int64_t n10 = ((int64_t)v[8]);
  int64_t n11 = (-((int64_t)n10));
  int64_t n12 = ((int64_t)v[10]);
  int64_t n13 = (((int64_t)n11) + ((int64_t)n12));
  int64_t n14 = ((int64_t)n13);
  int64_t n15 = ((int64_t)n14);
  int64_t n16 = (((int64_t)n9) * ((int64_t)n15));
  int64_t n17 = ((int64_t)v[6]);
  int64_t n18 = ((int64_t)v[9]);
  int64_t n19 = (-((int64_t)n18));
  int64_t n20 = ((int64_t)v[11]);
  int64_t n21 = (((int64_t)n19) + ((int64_t)n20));
  int64_t n22 = (((int64_t)n17) * ((int64_t)n21));
  int64_t n23 = ((int64_t)v[7]);
  int64_t n24 = ((int64_t)v[8]);
  int64_t n25 = ((int64_t)v[10]);
  int64_t n26 = (-((int64_t)n25));
  int64_t n27 = ((int64_t)n26);
  int64_t n28 = ((int64_t)n27);
  int64_t n29 = (((int64_t)n24) + ((int64_t)n28));
  int64_t n30 = ((int64_t)n29);
  int64_t n31 = ((int64_t)n30);
  int64_t n32 = (((int64_t)n23) * ((int64_t)n31));
  int64_t n33 = (((int64_t)n22) + ((int64_t)n32));
  int64_t n34 = (((int64_t)n16) + ((int64_t)n33));
  int64_t n35 = (((int64_t)n8) + ((int64_t)n34));
  __int128 n36 = (((__int128)n0) * ((__int128)n35));
  int64_t n37 = ((int64_t)v[4]);
  int64_t n38 = ((int64_t)v[7]);
  int64_t n39 = ((int64_t)n14);
  int64_t n40 = (((int64_t)n38) * ((int64_t)n39));
  int64_t n41 = ((int64_t)v[8]);
  int64_t n42 = ((int64_t)v[11]);
  int64_t n43 = (((int64_t)n41) * ((int64_t)n42));
  int64_t n44 = ((int64_t)v[9]);
  int64_t n45 = ((int64_t)n27);
  int64_t n46 = (((int64_t)n44) * ((int64_t)n45));
  int64_t n47 = (((int64_t)n43) + ((int64_t)n46));
  int64_t n48 = (((int64_t)n40) + ((int64_t)n47));
  __int128 n49 = (((__int128)n37) * ((__int128)n48));
  int64_t n50 = ((int64_t)v[5]);
  int64_t n51 = ((int64_t)v[6]);
  int64_t n52 = ((int64_t)n30);
  int64_t n53 = (((int64_t)n51) * ((int64_t)n52));
  __int128 n54 = (((__int128)n50) * ((__int128)n53));
  int64_t n55 = ((int64_t)v[6]);
  int64_t n56 = ((int64_t)v[8]);
  int64_t n57 = ((int64_t)n5);
  int64_t n58 = (((int64_t)n56) * ((int64_t)n57));
  int64_t n59 = ((int64_t)v[9]);
  int64_t n60 = ((int64_t)v[10]);
  int64_t n61 = (((int64_t)n59) * ((int64_t)n60));
  int64_t n62 = (((int64_t)n58) + ((int64_t)n61));
  __int128 n63 = (((__int128)n55) * ((__int128)n62));
  __int128 n64 = (((__int128)n54) + ((__int128)n63));
  __int128 n65 = (((__int128)n49) + ((__int128)n64));
  __int128 n66 = (((__int128)n36) + ((__int128)n65));
  return (((int)(((__int128)n66) > ((__int128)0))) - ((int)(((__int128)n66) < ((__int128)0))));
}

static int lb4_crossings2(const int64_t *v) {
  int64_t n0 = ((int64_t)v[4]);
  int64_t n1 = ((int64_t)v[9]);
  int64_t n2 = ((int64_t)v[11]);
  int64_t n3 = (-((int64_t)n2));
  int64_t n4 = (((int64_t)n1) + ((int64_t)n3));
  int64_t n5 = (((int64_t)n0) * ((int64_t)n4));
  int64_t n6 = ((int64_t)v[5]);
  int64_t n7 = ((int64_t)v[8]);
  int64_t n8 = (-((int64_t)n7));
  int64_t n9 = ((int64_t)v[10]);
  int64_t n10 = (((int64_t)n8) + ((int64_t)n9));
  int64_t n11 = (((int64_t)n6) * ((int64_t)n10));
  int64_t n12 = ((int64_t)v[6]);
  int64_t n13 = ((int64_t)v[9]);
  int64_t n14 = (-((int64_t)n13));
  int64_t n15 = ((int64_t)v[11]);
  int64_t n16 = (((int64_t)n14) + ((int64_t)n15));
  int64_t n17 = (((int64_t)n12) * ((int64_t)n16));
  int64_t n18 = ((int64_t)v[7]);
  int64_t n19 = ((int64_t)v[8]);
  int64_t n20 = ((int64_t)v[10]);
  int64_t n21 = (-((int64_t)n20));
  int64_t n22 = (((int64_t)n19) + ((int64_t)n21));
  int64_t n23 = (((int64_t)n18) * ((int64_t)n22));
  int64_t n24 = (((int64_t)n17) + ((int64_t)n23));
  int64_t n25 = (((int64_t)n11) + ((int64_t)n24));
  int64_t n26 = (((int64_t)n5) + ((int64_t)n25));
  return (((int)(((int64_t)n26) > ((int64_t)0))) - ((int)(((int64_t)n26) < ((int64_t)0))));
}

static int lb5_crossings2(const int64_t *v) {
  int64_t n0 = ((int64_t)v[3]);
  int64_t n1 = ((int64_t)v[4]);
  int64_t n2 = ((int64_t)v[9]);
  int64_t n3 = (-((int64_t)n2));
  int64_t n4 = ((int64_t)v[11]);
  int64_t n5 = (((int64_t)n3) + ((int64_t)n4));
  int64_t n6 = ((int64_t)n5);
  int64_t n7 = ((int64_t)n6);
  int64_t n8 = (((int64_t)n1) * ((int64_t)n7));
  int64_t n9 = ((int64_t)v[5]);
  int64_t n10 = ((int64_t)v[8]);
  int64_t n11 = ((int64_t)v[10]);
  int64_t n12 = (-((int64_t)n11));
  int64_t n13 = ((int64_t)n12);
  int64_t n14 = ((int64_t)n13);
  int64_t n15 = (((int64_t)n10) + ((int64_t)n14));
  int64_t n16 = (((int64_t)n9) * ((int64_t)n15));
  int64_t n17 = ((int64_t)v[6]);
  int64_t n18 = ((int64_t)v[9]);
  int64_t n19 = ((int64_t)v[11]);
  int64_t n20 = (-((int64_t)n19));
  int64_t n21 = ((int64_t)n20);
  int64_t n22 = ((int64_t)n21);
  int64_t n23 = (((int64_t)n18) + ((int64_t)n22));
  int64_t n24 = ((int64_t)n23);
  int64_t n25 = ((int64_t)n24);
  int64_t n26 = (((int64_t)n17) * ((int64_t)n25));
  int64_t n27 = ((int64_t)v[7]);
  int64_t n28 = ((int64_t)v[8]);
  int64_t n29 = (-((int64_t)n28));
  int64_t n30 = ((int64_t)v[10]);
  int64_t n31 = (((int64_t)n29) + ((int64_t)n30));
  int64_t n32 = (((int64_t)n27) * ((int64_t)n31));
  int64_t n33 = (((int64_t)n26) + ((int64_t)n32));
  int64_t n34 = (((int64_t)n16) + ((int64_t)n33));
  int64_t n35 = (((int64_t)n8) + ((int64_t)n34));
  __int128 n36 = (((__int128)n0) * ((__int128)n35));
  int64_t n37 = ((int64_t)v[4]);
  int64_t n38 = ((int64_t)v[7]);
  int64_t n39 = ((int64_t)n24);
  int64_t n40 = (((int64_t)n38) * ((int64_t)n39));
  __int128 n41 = (((__int128)n37) * ((__int128)n40));
  int64_t n42 = ((int64_t)v[5]);
  int64_t n43 = ((int64_t)v[6]);
  int64_t n44 = ((int64_t)n6);
  int64_t n45 = (((int64_t)n43) * ((int64_t)n44));
  int64_t n46 = ((int64_t)v[8]);
  int64_t n47 = ((int64_t)n21);
  int64_t n48 = (((int64_t)n46) * ((int64_t)n47));
  int64_t n49 = ((int64_t)v[9]);
  int64_t n50 = ((int64_t)v[10]);
  int64_t n51 = (((int64_t)n49) * ((int64_t)n50));
  int64_t n52 = (((int64_t)n48) + ((int64_t)n51));
  int64_t n53 = (((int64_t)n45) + ((int64_t)n52));
  __int128 n54 = (((__int128)n42) * ((__int128)n53));
  int64_t n55 = ((int64_t)v[7]);
  int64_t n56 = ((int64_t)v[8]);
  int64_t n57 = ((int64_t)v[11]);
  int64_t n58 = (((int64_t)n56) * ((int64_t)n57));
  int64_t n59 = ((int64_t)v[9]);
  int64_t n60 = ((int64_t)n13);
  int64_t n61 = (((int64_t)n59) * ((int64_t)n60));
  int64_t n62 = (((int64_t)n58) + ((int64_t)n61));
  __int128 n63 = (((__int128)n55) * ((__int128)n62));
  __int128 n64 = (((__int128)n54) + ((__int128)n63));
  __int128 n65 = (((__int128)n41) + ((__int128)n64));
  __int128 n66 = (((__int128)n36) + ((__int128)n65));
  return (((int)(((__int128)n66) > ((__int128)0))) - ((int)(((__int128)n66) < ((__int128)0))));
}

static int lb6_crossings2(const int64_t *v) {
  int64_t n0 = ((int64_t)v[4]);
  int64_t n1 = ((int64_t)v[9]);
  int64_t n2 = (-((int64_t)n1));
  int64_t n3 = ((int64_t)v[11]);
  int64_t n4 = (((int64_t)n2) + ((int64_t)n3));
  int64_t n5 = (((int64_t)n0) * ((int64_t)n4));
  int64_t n6 = ((int64_t)v[5]);
  int64_t n7 = ((int64_t)v[8]);
  int64_t n8 = ((int64_t)v[10]);
  int64_t n9 = (-((int64_t)n8));
  int64_t n10 = (((int64_t)n7) + ((int64_t)n9));
  int64_t n11 = (((int64_t)n6) * ((int64_t)n10));
  int64_t n12 = ((int64_t)v[6]);
  int64_t n13 = ((int64_t)v[9]);
  int64_t n14 = ((int64_t)v[11]);
  int64_t n15 = (-((int64_t)n14));
  int64_t n16 = (((int64_t)n13) + ((int64_t)n15));
  int64_t n17 = (((int64_t)n12) * ((int64_t)n16));
  int64_t n18 = ((int64_t)v[7]);
  int64_t n19 = ((int64_t)v[8]);
  int64_t n20 = (-((int64_t)n19));
  int64_t n21 = ((int64_t)v[10]);
  int64_t n22 = (((int64_t)n20) + ((int64_t)n21));
  int64_t n23 = (((int64_t)n18) * ((int64_t)n22));
  int64_t n24 = (((int64_t)n17) + ((int64_t)n23));
  int64_t n25 = (((int64_t)n11) + ((int64_t)n24));
  int64_t n26 = (((int64_t)n5) + ((int64_t)n25));
  return (((int)(((int64_t)n26) > ((int64_t)0))) - ((int)(((int64_t)n26) < ((int64_t)0))));
}

static int lb7_crossings2(const int64_t *v) {
  int64_t n0 = ((int64_t)v[0]);
  int64_t n1 = ((int64_t)v[3]);
  int64_t n2 = ((int64_t)v[8]);
  int64_t n3 = (-((int64_t)n2));
  int64_t n4 = ((int64_t)v[10]);
  int64_t n5 = (((int64_t)n3) + ((int64_t)n4));
  int64_t n6 = ((int64_t)n5);
  int64_t n7 = ((int64_t)n6);
  int64_t n8 = (((int64_t)n1) * ((int64_t)n7));
  int64_t n9 = ((int64_t)v[4]);
  int64_t n10 = ((int64_t)v[9]);
  int64_t n11 = ((int64_t)v[11]);
  int64_t n12 = (-((int64_t)n11));
  int64_t n13 = ((int64_t)n12);
  int64_t n14 = ((int64_t)n13);
  int64_t n15 = (((int64_t)n10) + ((int64_t)n14));
  int64_t n16 = (((int64_t)n9) * ((int64_t)n15));
  int64_t n17 = ((int64_t)v[8]);
  int64_t n18 = ((int64_t)v[11]);
  int64_t n19 = (((int64_t)n17) * ((int64_t)n18));
  int64_t n20 = ((int64_t)v[9]);
  int64_t n21 = ((int64_t)v[10]);
  int64_t n22 = (-((int64_t)n21));
  int64_t n23 = ((int64_t)n22);
  int64_t n24 = ((int64_t)n23);
  int64_t n25 = (((int64_t)n20) * ((int64_t)n24));
  int64_t n26 = (((int64_t)n19) + ((int64_t)n25));
  int64_t n27 = (((int64_t)n16) + ((int64_t)n26));
  int64_t n28 = (((int64_t)n8) + ((int64_t)n27));
  __int128 n29 = (((__int128)n0) * ((__int128)n28));
  int64_t n30 = ((int64_t)v[1]);
  int64_t n31 = ((int64_t)v[2]);
  int64_t n32 = ((int64_t)v[8]);
  int64_t n33 = ((int64_t)n23);
  int64_t n34 = (((int64_t)n32) + ((int64_t)n33));
  int64_t n35 = ((int64_t)n34);
  int64_t n36 = ((int64_t)n35);
  int64_t n37 = (((int64_t)n31) * ((int64_t)n36));
  int64_t n38 = ((int64_t)v[4]);
  int64_t n39 = ((int64_t)n6);
  int64_t n40 = (((int64_t)n38) * ((int64_t)n39));
  int64_t n41 = (((int64_t)n37) + ((int64_t)n40));
  __int128 n42 = (((__int128)n30) * ((__int128)n41));
  int64_t n43 = ((int64_t)v[2]);
  int64_t n44 = ((int64_t)v[4]);
  int64_t n45 = ((int64_t)v[9]);
  int64_t n46 = (-((int64_t)n45));
  int64_t n47 = ((int64_t)v[11]);
  int64_t n48 = (((int64_t)n46) + ((int64_t)n47));
  int64_t n49 = (((int64_t)n44) * ((int64_t)n48));
  int64_t n50 = ((int64_t)v[8]);
  int64_t n51 = ((int64_t)n13);
  int64_t n52 = (((int64_t)n50) * ((int64_t)n51));
  int64_t n53 = ((int64_t)v[9]);
  int64_t n54 = ((int64_t)v[10]);
  int64_t n55 = (((int64_t)n53) * ((int64_t)n54));
  int64_t n56 = (((int64_t)n52) + ((int64_t)n55));
  int64_t n57 = (((int64_t)n49) + ((int64_t)n56));
  __int128 n58 = (((__int128)n43) * ((__int128)n57));
  int64_t n59 = ((int64_t)v[3]);
  int64_t n60 = ((int64_t)v[4]);
  int64_t n61 = ((int64_t)n35);
  int64_t n62 = (((int64_t)n60) * ((int64_t)n61));
  __int128 n63 = (((__int128)n59) * ((__int128)n62));
  __int128 n64 = (((__int128)n58) + ((__int128)n63));
  __int128 n65 = (((__int128)n42) + ((__int128)n64));
  __int128 n66 = (((__int128)n29) + ((__int128)n65));
  return (((int)(((__int128)n66) > ((__int128)0))) - ((int)(((__int128)n66) < ((__int128)0))));
}

static int lb8_crossings2(const int64_t *v) {
  int64_t n0 = ((int64_t)v[0]);
  int64_t n1 = ((int64_t)v[8]);
  int64_t n2 = (-((int64_t)n1));
  int64_t n3 = ((int64_t)v[10]);
  int64_t n4 = (((int64_t)n2) + ((int64_t)n3));
  int64_t n5 = (((int64_t)n0) * ((int64_t)n4));
  int64_t n6 = ((int64_t)v[4]);
  int64_t n7 = ((int64_t)v[8]);
  int64_t n8 = ((int64_t)v[10]);
  int64_t n9 = (-((int64_t)n8));
  int64_t n10 = (((int64_t)n7) + ((int64_t)n9));
  int64_t n11 = (((int64_t)n6) * ((int64_t)n10));
  int64_t n12 = (((int64_t)n5) + ((int64_t)n11));
  return (((int)(((int64_t)n12) > ((int64_t)0))) - ((int)(((int64_t)n12) < ((int64_t)0))));
}

static int lb9_crossings2(const int64_t *v) {
  int64_t n0 = ((int64_t)v[1]);
  int64_t n1 = ((int64_t)v[8]);
  int64_t n2 = ((int64_t)v[10]);
  int64_t n3 = (-((int64_t)n2));
  int64_t n4 = (((int64_t)n1) + ((int64_t)n3));
  int64_t n5 = (((int64_t)n0) * ((int64_t)n4));
  int64_t n6 = ((int64_t)v[4]);
  int64_t n7 = ((int64_t)v[9]);
  int64_t n8 = (-((int64_t)n7));
  int64_t n9 = ((int64_t)v[11]);
  int64_t n10 = (((int64_t)n8) + ((int64_t)n9));
  int64_t n11 = (((int64_t)n6) * ((int64_t)n10));
  int64_t n12 = ((int64_t)v[8]);
  int64_t n13 = ((int64_t)v[11]);
  int64_t n14 = (-((int64_t)n13));
  int64_t n15 = (((int64_t)n12) * ((int64_t)n14));
  int64_t n16 = ((int64_t)v[9]);
  int64_t n17 = ((int64_t)v[10]);
  int64_t n18 = (((int64_t)n16) * ((int64_t)n17));
  int64_t n19 = (((int64_t)n15) + ((int64_t)n18));
  int64_t n20 = (((int64_t)n11) + ((int64_t)n19));
  int64_t n21 = (((int64_t)n5) + ((int64_t)n20));
  return (((int)(((int64_t)n21) > ((int64_t)0))) - ((int)(((int64_t)n21) < ((int64_t)0))));
}

static int lb10_crossings2(const int64_t *v) {
  int64_t n0 = ((int64_t)v[2]);
  int64_t n1 = ((int64_t)v[8]);
  int64_t n2 = ((int64_t)v[10]);
  int64_t n3 = (-((int64_t)n2));
  int64_t n4 = (((int64_t)n1) + ((int64_t)n3));
  int64_t n5 = (((int64_t)n0) * ((int64_t)n4));
  int64_t n6 = ((int64_t)v[4]);
  int64_t n7 = ((int64_t)v[8]);
  int64_t n8 = (-((int64_t)n7));
  int64_t n9 = ((int64_t)v[10]);
  int64_t n10 = (((int64_t)n8) + ((int64_t)n9));
  int64_t n11 = (((int64_t)n6) * ((int64_t)n10));
  int64_t n12 = (((int64_t)n5) + ((int64_t)n11));
  return (((int)(((int64_t)n12) > ((int64_t)0))) - ((int)(((int64_t)n12) < ((int64_t)0))));
}

static int lb11_crossings2(const int64_t *v) {
  int64_t n0 = ((int64_t)v[8]);
  int64_t n1 = ((int64_t)v[10]);
  int64_t n2 = (-((int64_t)n1));
  int64_t n3 = (((int64_t)n0) + ((int64_t)n2));
  return (((int)(((int64_t)n3) > ((int64_t)0))) - ((int)(((int64_t)n3) < ((int64_t)0))));
}

static int lb12_crossings2(const int64_t *v) {
  int64_t n0 = ((int64_t)v[3]);
  int64_t n1 = ((int64_t)v[8]);
  int64_t n2 = (-((int64_t)n1));
  int64_t n3 = ((int64_t)v[10]);
  int64_t n4 = (((int64_t)n2) + ((int64_t)n3));
  int64_t n5 = (((int64_t)n0) * ((int64_t)n4));
  int64_t n6 = ((int64_t)v[4]);
  int64_t n7 = ((int64_t)v[9]);
  int64_t n8 = ((int64_t)v[11]);
  int64_t n9 = (-((int64_t)n8));
  int64_t n10 = (((int64_t)n7) + ((int64_t)n9));
  int64_t n11 = (((int64_t)n6) * ((int64_t)n10));
  int64_t n12 = ((int64_t)v[8]);
  int64_t n13 = ((int64_t)v[11]);
  int64_t n14 = (((int64_t)n12) * ((int64_t)n13));
  int64_t n15 = ((int64_t)v[9]);
  int64_t n16 = ((int64_t)v[10]);
  int64_t n17 = (-((int64_t)n16));
  int64_t n18 = (((int64_t)n15) * ((int64_t)n17));
  int64_t n19 = (((int64_t)n14) + ((int64_t)n18));
  int64_t n20 = (((int64_t)n11) + ((int64_t)n19));
  int64_t n21 = (((int64_t)n5) + ((int64_t)n20));
  return (((int)(((int64_t)n21) > ((int64_t)0))) - ((int)(((int64_t)n21) < ((int64_t)0))));
}

static int lb13_crossings2(const int64_t *v) {
  int64_t n0 = ((int64_t)v[8]);
  int64_t n1 = (-((int64_t)n0));
  int64_t n2 = ((int64_t)v[10]);
  int64_t n3 = (((int64_t)n1) + ((int64_t)n2));
  return (((int)(((int64_t)n3) > ((int64_t)0))) - ((int)(((int64_t)n3) < ((int64_t)0))));
}

static int lb14_crossings2(const int64_t *v) {
  int64_t n0 = ((int64_t)v[0]);
  int64_t n1 = ((int64_t)v[3]);
  int64_t n2 = ((int64_t)v[9]);
  int64_t n3 = ((int64_t)v[11]);
  int64_t n4 = (-((int64_t)n3));
  int64_t n5 = ((int64_t)n4);
  int64_t n6 = ((int64_t)n5);
  int64_t n7 = (((int64_t)n2) + ((int64_t)n6));
  int64_t n8 = ((int64_t)n7);
  int64_t n9 = ((int64_t)n8);
  int64_t n10 = (((int64_t)n1) * ((int64_t)n9));
  int64_t n11 = ((int64_t)v[5]);
  int64_t n12 = ((int64_t)v[9]);
  int64_t n13 = (-((int64_t)n12));
  int64_t n14 = ((int64_t)v[11]);
  int64_t n15 = (((int64_t)n13) + ((int64_t)n14));
  int64_t n16 = ((int64_t)n15);
  int64_t n17 = ((int64_t)n16);
  int64_t n18 = (((int64_t)n11) * ((int64_t)n17));
  int64_t n19 = (((int64_t)n10) + ((int64_t)n18));
  __int128 n20 = (((__int128)n0) * ((__int128)n19));
  int64_t n21 = ((int64_t)v[1]);
  int64_t n22 = ((int64_t)v[2]);
  int64_t n23 = ((int64_t)n16);
  int64_t n24 = (((int64_t)n22) * ((int64_t)n23));
  int64_t n25 = ((int64_t)v[5]);
  int64_t n26 = ((int64_t)v[8]);
  int64_t n27 = ((int64_t)v[10]);
  int64_t n28 = (-((int64_t)n27));
  int64_t n29 = ((int64_t)n28);
  int64_t n30 = ((int64_t)n29);
  int64_t n31 = (((int64_t)n26) + ((int64_t)n30));
  int64_t n32 = (((int64_t)n25) * ((int64_t)n31));
  int64_t n33 = ((int64_t)v[8]);
  int64_t n34 = ((int64_t)n5);
  int64_t n35 = (((int64_t)n33) * ((int64_t)n34));
  int64_t n36 = ((int64_t)v[9]);
  int64_t n37 = ((int64_t)v[10]);
  int64_t n38 = (((int64_t)n36) * ((int64_t)n37));
  int64_t n39 = (((int64_t)n35) + ((int64_t)n38));
  int64_t n40 = (((int64_t)n32) + ((int64_t)n39));
  int64_t n41 = (((int64_t)n24) + ((int64_t)n40));
  __int128 n42 = (((__int128)n21) * ((__int128)n41));
  int64_t n43 = ((int64_t)v[2]);
  int64_t n44 = ((int64_t)v[5]);
  int64_t n45 = ((int64_t)n8);
  int64_t n46 = (((int64_t)n44) * ((int64_t)n45));
  __int128 n47 = (((__int128)n43) * ((__int128)n46));
  int64_t n48 = ((int64_t)v[3]);
  int64_t n49 = ((int64_t)v[5]);
  int64_t n50 = ((int64_t)v[8]);
  int64_t n51 = (-((int64_t)n50));
  int64_t n52 = ((int64_t)v[10]);
  int64_t n53 = (((int64_t)n51) + ((int64_t)n52));
  int64_t n54 = (((int64_t)n49) * ((int64_t)n53));
  int64_t n55 = ((int64_t)v[8]);
  int64_t n56 = ((int64_t)v[11]);
  int64_t n57 = (((int64_t)n55) * ((int64_t)n56));
  int64_t n58 = ((int64_t)v[9]);
  int64_t n59 = ((int64_t)n29);
  int64_t n60 = (((int64_t)n58) * ((int64_t)n59));
  int64_t n61 = (((int64_t)n57) + ((int64_t)n60));
  int64_t n62 = (((int64_t)n54) + ((int64_t)n61));
  __int128 n63 = (((__int128)n48) * ((__int128)n62));
  __int128 n64 = (((__int128)n47) + ((__int128)n63));
  __int128 n65 = (((__int128)n42) + ((__int128)n64));
  __int128 n66 = (((__int128)n20) + ((__int128)n65));
  return (((int)(((__int128)n66) > ((__int128)0))) - ((int)(((__int128)n66) < ((__int128)0))));
}

static int lb15_crossings2(const int64_t *v) {
  int64_t n0 = ((int64_t)v[0]);
  int64_t n1 = ((int64_t)v[9]);
  int64_t n2 = ((int64_t)v[11]);
  int64_t n3 = (-((int64_t)n2));
  int64_t n4 = (((int64_t)n1) + ((int64_t)n3));
  int64_t n5 = (((int64_t)n0) * ((int64_t)n4));
  int64_t n6 = ((int64_t)v[5]);
  int64_t n7 = ((int64_t)v[8]);
  int64_t n8 = (-((int64_t)n7));
  int64_t n9 = ((int64_t)v[10]);
  int64_t n10 = (((int64_t)n8) + ((int64_t)n9));
  int64_t n11 = (((int64_t)n6) * ((int64_t)n10));
  int64_t n12 = ((int64_t)v[8]);
  int64_t n13 = ((int64_t)v[11]);
  int64_t n14 = (((int64_t)n12) * ((int64_t)n13));
  int64_t n15 = ((int64_t)v[9]);
  int64_t n16 = ((int64_t)v[10]);
  int64_t n17 = (-((int64_t)n16));
  int64_t n18 = (((int64_t)n15) * ((int64_t)n17));
  int64_t n19 = (((int64_t)n14) + ((int64_t)n18));
  int64_t n20 = (((int64_t)n11) + ((int64_t)n19));
  int64_t n21 = (((int64_t)n5) + ((int64_t)n20));
  return (((int)(((int64_t)n21) > ((int64_t)0))) - ((int)(((int64_t)n21) < ((int64_t)0))));
}

static int lb16_crossings2(const int64_t *v) {
  int64_t n0 = ((int64_t)v[1]);
  int64_t n1 = ((int64_t)v[9]);
  int64_t n2 = (-((int64_t)n1));
  int64_t n3 = ((int64_t)v[11]);
  int64_t n4 = (((int64_t)n2) + ((int64_t)n3));
  int64_t n5 = (((int64_t)n0) * ((int64_t)n4));
  int64_t n6 = ((int64_t)v[5]);
  int64_t n7 = ((int64_t)v[9]);
  int64_t n8 = ((int64_t)v[11]);
  int64_t n9 = (-((int64_t)n8));
  int64_t n10 = (((int64_t)n7) + ((int64_t)n9));
  int64_t n11 = (((int64_t)n6) * ((int64_t)n10));
  int64_t n12 = (((int64_t)n5) + ((int64_t)n11));
  return (((int)(((int64_t)n12) > ((int64_t)0))) - ((int)(((int64_t)n12) < ((int64_t)0))));
}

static int lb17_crossings2(const int64_t *v) {
  int64_t n0 = ((int64_t)v[2]);
  int64_t n1 = ((int64_t)v[9]);
  int64_t n2 = (-((int64_t)n1));
  int64_t n3 = ((int64_t)v[11]);
  int64_t n4 = (((int64_t)n2) + ((int64_t)n3));
  int64_t n5 = (((int64_t)n0) * ((int64_t)n4));
  int64_t n6 = ((int64_t)v[5]);
  int64_t n7 = ((int64_t)v[8]);
  int64_t n8 = ((int64_t)v[10]);
  int64_t n9 = (-((int64_t)n8));
  int64_t n10 = (((int64_t)n7) + ((int64_t)n9));
  int64_t n11 = (((int64_t)n6) * ((int64_t)n10));
  int64_t n12 = ((int64_t)v[8]);
  int64_t n13 = ((int64_t)v[11]);
  int64_t n14 = (-((int64_t)n13));
  int64_t n15 = (((int64_t)n12) * ((int64_t)n14));
  int64_t n16 = ((int64_t)v[9]);
  int64_t n17 = ((int64_t)v[10]);
  int64_t n18 = (((int64_t)n16) * ((int64_t)n17));
  int64_t n19 = (((int64_t)n15) + ((int64_t)n18));
  int64_t n20 = (((int64_t)n11) + ((int64_t)n19));
  int64_t n21 = (((int64_t)n5) + ((int64_t)n20));
  return (((int)(((int64_t)n21) > ((int64_t)0))) - ((int)(((int64_t)n21) < ((int64_t)0))));
}

static int lb18_crossings2(const int64_t *v) {
  int64_t n0 = ((int64_t)v[9]);
  int64_t n1 = (-((int64_t)n0));
  int64_t n2 = ((int64_t)v[11]);
  int64_t n3 = (((int64_t)n1) + ((int64_t)n2));
  return (((int)(((int64_t)n3) > ((int64_t)0))) - ((int)(((int64_t)n3) < ((int64_t)0))));
}

static int lb19_crossings2(const int64_t *v) {
  int64_t n0 = ((int64_t)v[3]);
  int64_t n1 = ((int64_t)v[9]);
  int64_t n2 = ((int64_t)v[11]);
  int64_t n3 = (-((int64_t)n2));
  int64_t n4 = (((int64_t)n1) + ((int64_t)n3));
  int64_t n5 = (((int64_t)n0) * ((int64_t)n4));
  int64_t n6 = ((int64_t)v[5]);
  int64_t n7 = ((int64_t)v[9]);
  int64_t n8 = (-((int64_t)n7));
  int64_t n9 = ((int64_t)v[11]);
  int64_t n10 = (((int64_t)n8) + ((int64_t)n9));
  int64_t n11 = (((int64_t)n6) * ((int64_t)n10));
  int64_t n12 = (((int64_t)n5) + ((int64_t)n11));
  return (((int)(((int64_t)n12) > ((int64_t)0))) - ((int)(((int64_t)n12) < ((int64_t)0))));
}

static int lb20_crossings2(const int64_t *v) {
  int64_t n0 = ((int64_t)v[9]);
  int64_t n1 = ((int64_t)v[11]);
  int64_t n2 = (-((int64_t)n1));
  int64_t n3 = (((int64_t)n0) + ((int64_t)n2));
  return (((int)(((int64_t)n3) > ((int64_t)0))) - ((int)(((int64_t)n3) < ((int64_t)0))));
}

static int lb21_crossings2(const int64_t *v) {
  int64_t n0 = ((int64_t)v[0]);
  int64_t n1 = ((int64_t)v[3]);
  int64_t n2 = ((int64_t)v[8]);
  int64_t n3 = ((int64_t)v[10]);
  int64_t n4 = (-((int64_t)n3));
  int64_t n5 = ((int64_t)n4);
  int64_t n6 = ((int64_t)n5);
  int64_t n7 = (((int64_t)n2) + ((int64_t)n6));
  int64_t n8 = ((int64_t)n7);
  int64_t n9 = ((int64_t)n8);
  int64_t n10 = (((int64_t)n1) * ((int64_t)n9));
  int64_t n11 = ((int64_t)v[6]);
  int64_t n12 = ((int64_t)v[9]);
  int64_t n13 = (-((int64_t)n12));
  int64_t n14 = ((int64_t)v[11]);
  int64_t n15 = (((int64_t)n13) + ((int64_t)n14));
  int64_t n16 = (((int64_t)n11) * ((int64_t)n15));
  int64_t n17 = ((int64_t)v[8]);
  int64_t n18 = ((int64_t)v[11]);
  int64_t n19 = (-((int64_t)n18));
  int64_t n20 = ((int64_t)n19);
  int64_t n21 = ((int64_t)n20);
  int64_t n22 = (((int64_t)n17) * ((int64_t)n21));
  int64_t n23 = ((int64_t)v[9]);
  int64_t n24 = ((int64_t)v[10]);
  int64_t n25 = (((int64_t)n23) * ((int64_t)n24));
  int64_t n26 = (((int64_t)n22) + ((int64_t)n25));
  int64_t n27 = (((int64_t)n16) + ((int64_t)n26));
  int64_t n28 = (((int64_t)n10) + ((int64_t)n27));
  __int128 n29 = (((__int128)n0) * ((__int128)n28));
  int64_t n30 = ((int64_t)v[1]);
  int64_t n31 = ((int64_t)v[2]);
  int64_t n32 = ((int64_t)v[8]);
  int64_t n33 = (-((int64_t)n32));
  int64_t n34 = ((int64_t)v[10]);
  int64_t n35 = (((int64_t)n33) + ((int64_t)n34));
  int64_t n36 = ((int64_t)n35);
  int64_t n37 = ((int64_t)n36);
  int64_t n38 = (((int64_t)n31) * ((int64_t)n37));
  int64_t n39 = ((int64_t)v[6]);
  int64_t n40 = ((int64_t)n8);
  int64_t n41 = (((int64_t)n39) * ((int64_t)n40));
  int64_t n42 = (((int64_t)n38) + ((int64_t)n41));
  __int128 n43 = (((__int128)n30) * ((__int128)n42));
  int64_t n44 = ((int64_t)v[2]);
  int64_t n45 = ((int64_t)v[6]);
  int64_t n46 = ((int64_t)v[9]);
  int64_t n47 = ((int64_t)n20);
  int64_t n48 = (((int64_t)n46) + ((int64_t)n47));
  int64_t n49 = (((int64_t)n45) * ((int64_t)n48));
  int64_t n50 = ((int64_t)v[8]);
  int64_t n51 = ((int64_t)v[11]);
  int64_t n52 = (((int64_t)n50) * ((int64_t)n51));
  int64_t n53 = ((int64_t)v[9]);
  int64_t n54 = ((int64_t)n5);
  int64_t n55 = (((int64_t)n53) * ((int64_t)n54));
  int64_t n56 = (((int64_t)n52) + ((int64_t)n55));
  int64_t n57 = (((int64_t)n49) + ((int64_t)n56));
  __int128 n58 = (((__int128)n44) * ((__int128)n57));
  int64_t n59 = ((int64_t)v[3]);
  int64_t n60 = ((int64_t)v[6]);
  int64_t n61 = ((int64_t)n36);
  int64_t n62 = (((int64_t)n60) * ((int64_t)n61));
  __int128 n63 = (((__int128)n59) * ((__int128)n62));
  __int128 n64 = (((__int128)n58) + ((__int128)n63));
  __int128 n65 = (((__int128)n43) + ((__int128)n64));
  __int128 n66 = (((__int128)n29) + ((__int128)n65));
  return (((int)(((__int128)n66) > ((__int128)0))) - ((int)(((__int128)n66) < ((__int128)0))));
}

static int lb22_crossings2(const int64_t *v) {
  int64_t n0 = ((int64_t)v[0]);
  int64_t n1 = ((int64_t)v[8]);
  int64_t n2 = ((int64_t)v[10]);
  int64_t n3 = (-((int64_t)n2));
  int64_t n4 = (((int64_t)n1) + ((int64_t)n3));
  int64_t n5 = (((int64_t)n0) * ((int64_t)n4));
  int64_t n6 = ((int64_t)v[6]);
  int64_t n7 = ((int64_t)v[8]);
  int64_t n8 = (-((int64_t)n7));
  int64_t n9 = ((int64_t)v[10]);
  int64_t n10 = (((int64_t)n8) + ((int64_t)n9));
  int64_t n11 = (((int64_t)n6) * ((int64_t)n10));
  int64_t n12 = (((int64_t)n5) + ((int64_t)n11));
  return (((int)(((int64_t)n12) > ((int64_t)0))) - ((int)(((int64_t)n12) < ((int64_t)0))));
}

static int lb23_crossings2(const int64_t *v) {
  int64_t n0 = ((int64_t)v[1]);
  int64_t n1 = ((int64_t)v[8]);
  int64_t n2 = (-((int64_t)n1));
  int64_t n3 = ((int64_t)v[10]);
  int64_t n4 = (((int64_t)n2) + ((int64_t)n3));
  int64_t n5 = (((int64_t)n0) * ((int64_t)n4));
  int64_t n6 = ((int64_t)v[6]);
  int64_t n7 = ((int64_t)v[9]);
  int64_t n8 = ((int64_t)v[11]);
  int64_t n9 = (-((int64_t)n8));
  int64_t n10 = (((int64_t)n7) + ((int64_t)n9));
  int64_t n11 = (((int64_t)n6) * ((int64_t)n10));
  int64_t n12 = ((int64_t)v[8]);
  int64_t n13 = ((int64_t)v[11]);
  int64_t n14 = (((int64_t)n12) * ((int64_t)n13));
  int64_t n15 = ((int64_t)v[9]);
  int64_t n16 = ((int64_t)v[10]);
  int64_t n17 = (-((int64_t)n16));
  int64_t n18 = (((int64_t)n15) * ((int64_t)n17));
  int64_t n19 = (((int64_t)n14) + ((int64_t)n18));
  int64_t n20 = (((int64_t)n11) + ((int64_t)n19));
  int64_t n21 = (((int64_t)n5) + ((int64_t)n20));
  return (((int)(((int64_t)n21) > ((int64_t)0))) - ((int)(((int64_t)n21) < ((int64_t)0))));
}

static int lb24_crossings2(const int64_t *v) {
  int64_t n0 = ((int64_t)v[2]);
  int64_t n1 = ((int64_t)v[8]);
  int64_t n2 = (-((int64_t)n1));
  int64_t n3 = ((int64_t)v[10]);
  int64_t n4 = (((int64_t)n2) + ((int64_t)n3));
  int64_t n5 = (((int64_t)n0) * ((int64_t)n4));
  int64_t n6 = ((int64_t)v[6]);
  int64_t n7 = ((int64_t)v[8]);
  int64_t n8 = ((int64_t)v[10]);
  int64_t n9 = (-((int64_t)n8));
  int64_t n10 = (((int64_t)n7) + ((int64_t)n9));
  int64_t n11 = (((int64_t)n6) * ((int64_t)n10));
  int64_t n12 = (((int64_t)n5) + ((int64_t)n11));
  return (((int)(((int64_t)n12) > ((int64_t)0))) - ((int)(((int64_t)n12) < ((int64_t)0))));
}

static int lb25_crossings2(const int64_t *v) {
  int64_t n0 = ((int64_t)v[8]);
  int64_t n1 = (-((int64_t)n0));
  int64_t n2 = ((int64_t)v[10]);
  int64_t n3 = (((int64_t)n1) + ((int64_t)n2));
  return (((int)(((int64_t)n3) > ((int64_t)0))) - ((int)(((int64_t)n3) < ((int64_t)0))));
}

static int lb26_crossings2(const int64_t *v) {
  int64_t n0 = ((int64_t)v[3]);
  int64_t n1 = ((int64_t)v[8]);
  int64_t n2 = ((int64_t)v[10]);
  int64_t n3 = (-((int64_t)n2));
  int64_t n4 = (((int64_t)n1) + ((int64_t)n3));
  int64_t n5 = (((int64_t)n0) * ((int64_t)n4));
  int64_t n6 = ((int64_t)v[6]);
  int64_t n7 = ((int64_t)v[9]);
  int64_t n8 = (-((int64_t)n7));
  int64_t n9 = ((int64_t)v[11]);
  int64_t n10 = (((int64_t)n8) + ((int64_t)n9));
  int64_t n11 = (((int64_t)n6) * ((int64_t)n10));
  int64_t n12 = ((int64_t)v[8]);
  int64_t n13 = ((int64_t)v[11]);
  int64_t n14 = (-((int64_t)n13));
  int64_t n15 = (((int64_t)n12) * ((int64_t)n14));
  int64_t n16 = ((int64_t)v[9]);
  int64_t n17 = ((int64_t)v[10]);
  int64_t n18 = (((int64_t)n16) * ((int64_t)n17));
  int64_t n19 = (((int64_t)n15) + ((int64_t)n18));
  int64_t n20 = (((int64_t)n11) + ((int64_t)n19));
  int64_t n21 = (((int64_t)n5) + ((int64_t)n20));
  return (((int)(((int64_t)n21) > ((int64_t)0))) - ((int)(((int64_t)n21) < ((int64_t)0))));
}

static int lb27_crossings2(const int64_t *v) {
  int64_t n0 = ((int64_t)v[8]);
  int64_t n1 = ((int64_t)v[10]);
  int64_t n2 = (-((int64_t)n1));
  int64_t n3 = (((int64_t)n0) + ((int64_t)n2));
  return (((int)(((int64_t)n3) > ((int64_t)0))) - ((int)(((int64_t)n3) < ((int64_t)0))));
}

static int lb28_crossings2(const int64_t *v) {
  int64_t n0 = ((int64_t)v[0]);
  int64_t n1 = ((int64_t)v[9]);
  int64_t n2 = (-((int64_t)n1));
  int64_t n3 = ((int64_t)v[11]);
  int64_t n4 = (((int64_t)n2) + ((int64_t)n3));
  int64_t n5 = (((int64_t)n0) * ((int64_t)n4));
  int64_t n6 = ((int64_t)v[1]);
  int64_t n7 = ((int64_t)v[8]);
  int64_t n8 = ((int64_t)v[10]);
  int64_t n9 = (-((int64_t)n8));
  int64_t n10 = (((int64_t)n7) + ((int64_t)n9));
  int64_t n11 = (((int64_t)n6) * ((int64_t)n10));
  int64_t n12 = ((int64_t)v[2]);
  int64_t n13 = ((int64_t)v[9]);
  int64_t n14 = ((int64_t)v[11]);
  int64_t n15 = (-((int64_t)n14));
  int64_t n16 = (((int64_t)n13) + ((int64_t)n15));
  int64_t n17 = (((int64_t)n12) * ((int64_t)n16));
  int64_t n18 = ((int64_t)v[3]);
  int64_t n19 = ((int64_t)v[8]);
  int64_t n20 = (-((int64_t)n19));
  int64_t n21 = ((int64_t)v[10]);
  int64_t n22 = (((int64_t)n20) + ((int64_t)n21));
  int64_t n23 = (((int64_t)n18) * ((int64_t)n22));
  int64_t n24 = (((int64_t)n17) + ((int64_t)n23));
  int64_t n25 = (((int64_t)n11) + ((int64_t)n24));
  int64_t n26 = (((int64_t)n5) + ((int64_t)n25));
  return (((int)(((int64_t)n26) > ((int64_t)0))) - ((int)(((int64_t)n26) < ((int64_t)0))));
}

static int lb29_crossings2(const int64_t *v) {
  int64_t n0 = ((int64_t)v[8]);
  int64_t n1 = (-((int64_t)n0));
  int64_t n2 = ((int64_t)v[10]);
  int64_t n3 = (((int64_t)n1) + ((int64_t)n2));
  return (((int)(((int64_t)n3) > ((int64_t)0))) - ((int)(((int64_t)n3) < ((int64_t)0))));
}

static int lb30_crossings2(const int64_t *v) {
  int64_t n0 = ((int64_t)v[9]);
  int64_t n1 = ((int64_t)v[11]);
  int64_t n2 = (-((int64_t)n1));
  int64_t n3 = (((int64_t)n0) + ((int64_t)n2));
  return (((int)(((int64_t)n3) > ((int64_t)0))) - ((int)(((int64_t)n3) < ((int64_t)0))));
}

static int lb31_crossings2(const int64_t *v) {
  int64_t n0 = ((int64_t)v[8]);
  int64_t n1 = ((int64_t)v[10]);
  int64_t n2 = (-((int64_t)n1));
  int64_t n3 = (((int64_t)n0) + ((int64_t)n2));
  return (((int)(((int64_t)n3) > ((int64_t)0))) - ((int)(((int64_t)n3) < ((int64_t)0))));
}

static int lb32_crossings2(const int64_t *v) {
  int64_t n0 = ((int64_t)v[9]);
  int64_t n1 = (-((int64_t)n0));
  int64_t n2 = ((int64_t)v[11]);
  int64_t n3 = (((int64_t)n1) + ((int64_t)n2));
  return (((int)(((int64_t)n3) > ((int64_t)0))) - ((int)(((int64_t)n3) < ((int64_t)0))));
}

static int lb33_crossings2(const int64_t *v) {
  int64_t n0 = ((int64_t)v[0]);
  int64_t n1 = ((int64_t)v[3]);
  int64_t n2 = ((int64_t)v[9]);
  int64_t n3 = (-((int64_t)n2));
  int64_t n4 = ((int64_t)v[11]);
  int64_t n5 = (((int64_t)n3) + ((int64_t)n4));
  int64_t n6 = ((int64_t)n5);
  int64_t n7 = ((int64_t)n6);
  int64_t n8 = (((int64_t)n1) * ((int64_t)n7));
  int64_t n9 = ((int64_t)v[7]);
  int64_t n10 = ((int64_t)v[9]);
  int64_t n11 = ((int64_t)v[11]);
  int64_t n12 = (-((int64_t)n11));
  int64_t n13 = ((int64_t)n12);
  int64_t n14 = ((int64_t)n13);
  int64_t n15 = (((int64_t)n10) + ((int64_t)n14));
  int64_t n16 = ((int64_t)n15);
  int64_t n17 = ((int64_t)n16);
  int64_t n18 = (((int64_t)n9) * ((int64_t)n17));
  int64_t n19 = (((int64_t)n8) + ((int64_t)n18));
  __int128 n20 = (((__int128)n0) * ((__int128)n19));
  int64_t n21 = ((int64_t)v[1]);
  int64_t n22 = ((int64_t)v[2]);
  int64_t n23 = ((int64_t)n16);
  int64_t n24 = (((int64_t)n22) * ((int64_t)n23));
  int64_t n25 = ((int64_t)v[7]);
  int64_t n26 = ((int64_t)v[8]);
  int64_t n27 = (-((int64_t)n26));
  int64_t n28 = ((int64_t)v[10]);
  int64_t n29 = (((int64_t)n27) + ((int64_t)n28));
  int64_t n30 = (((int64_t)n25) * ((int64_t)n29));
  int64_t n31 = ((int64_t)v[8]);
  int64_t n32 = ((int64_t)v[11]);
  int64_t n33 = (((int64_t)n31) * ((int64_t)n32));
  int64_t n34 = ((int64_t)v[9]);
  int64_t n35 = ((int64_t)v[10]);
  int64_t n36 = (-((int64_t)n35));
  int64_t n37 = ((int64_t)n36);
  int64_t n38 = ((int64_t)n37);
  int64_t n39 = (((int64_t)n34) * ((int64_t)n38));
  int64_t n40 = (((int64_t)n33) + ((int64_t)n39));
  int64_t n41 = (((int64_t)n30) + ((int64_t)n40));
  int64_t n42 = (((int64_t)n24) + ((int64_t)n41));
  __int128 n43 = (((__int128)n21) * ((__int128)n42));
  int64_t n44 = ((int64_t)v[2]);
  int64_t n45 = ((int64_t)v[7]);
  int64_t n46 = ((int64_t)n6);
  int64_t n47 = (((int64_t)n45) * ((int64_t)n46));
  __int128 n48 = (((__int128)n44) * ((__int128)n47));
  int64_t n49 = ((int64_t)v[3]);
  int64_t n50 = ((int64_t)v[7]);
  int64_t n51 = ((int64_t)v[8]);
  int64_t n52 = ((int64_t)n37);
  int64_t n53 = (((int64_t)n51) + ((int64_t)n52));
  int64_t n54 = (((int64_t)n50) * ((int64_t)n53));
  int64_t n55 = ((int64_t)v[8]);
  int64_t n56 = ((int64_t)n13);
  int64_t n57 = (((int64_t)n55) * ((int64_t)n56));
  int64_t n58 = ((int64_t)v[9]);
  int64_t n59 = ((int64_t)v[10]);
  int64_t n60 = (((int64_t)n58) * ((int64_t)n59));
  int64_t n61 = (((int64_t)n57) + ((int64_t)n60));
  int64_t n62 = (((int64_t)n54) + ((int64_t)n61));
  __int128 n63 = (((__int128)n49) * ((__int128)n62));
  __int128 n64 = (((__int128)n48) + ((__int128)n63));
  __int128 n65 = (((__int128)n43) + ((__int128)n64));
  __int128 n66 = (((__int128)n20) + ((__int128)n65));
  return (((int)(((__int128)n66) > ((__int128)0))) - ((int)(((__int128)n66) < ((__int128)0))));
}

static int lb34_crossings2(const int64_t *v) {
  int64_t n0 = ((int64_t)v[0]);
  int64_t n1 = ((int64_t)v[9]);
  int64_t n2 = (-((int64_t)n1));
  int64_t n3 = ((int64_t)v[11]);
  int64_t n4 = (((int64_t)n2) + ((int64_t)n3));
  int64_t n5 = (((int64_t)n0) * ((int64_t)n4));
  int64_t n6 = ((int64_t)v[7]);
  int64_t n7 = ((int64_t)v[8]);
  int64_t n8 = ((int64_t)v[10]);
  int64_t n9 = (-((int64_t)n8));
  int64_t n10 = (((int64_t)n7) + ((int64_t)n9));
  int64_t n11 = (((int64_t)n6) * ((int64_t)n10));
  int64_t n12 = ((int64_t)v[8]);
  int64_t n13 = ((int64_t)v[11]);
  int64_t n14 = (-((int64_t)n13));
  int64_t n15 = (((int64_t)n12) * ((int64_t)n14));
  int64_t n16 = ((int64_t)v[9]);
  int64_t n17 = ((int64_t)v[10]);
  int64_t n18 = (((int64_t)n16) * ((int64_t)n17));
  int64_t n19 = (((int64_t)n15) + ((int64_t)n18));
  int64_t n20 = (((int64_t)n11) + ((int64_t)n19));
  int64_t n21 = (((int64_t)n5) + ((int64_t)n20));
  return (((int)(((int64_t)n21) > ((int64_t)0))) - ((int)(((int64_t)n21) < ((int64_t)0))));
}

static int lb35_crossings2(const int64_t *v) {
  int64_t n0 = ((int64_t)v[1]);
  int64_t n1 = ((int64_t)v[9]);
  int64_t n2 = ((int64_t)v[11]);
  int64_t n3 = (-((int64_t)n2));
  int64_t n4 = (((int64_t)n1) + ((int64_t)n3));
  int64_t n5 = (((int64_t)n0) * ((int64_t)n4));
  int64_t n6 = ((int64_t)v[7]);
  int64_t n7 = ((int64_t)v[9]);
  int64_t n8 = (-((int64_t)n7));
  int64_t n9 = ((int64_t)v[11]);
  int64_t n10 = (((int64_t)n8) + ((int64_t)n9));
  int64_t n11 = (((int64_t)n6) * ((int64_t)n10));
  int64_t n12 = (((int64_t)n5) + ((int64_t)n11));
  return (((int)(((int64_t)n12) > ((int64_t)0))) - ((int)(((int64_t)n12) < ((int64_t)0))));
}

static int lb36_crossings2(const int64_t *v) {
  int64_t n0 = ((int64_t)v[2]);
  int64_t n1 = ((int64_t)v[9]);
  int64_t n2 = ((int64_t)v[11]);
  int64_t n3 = (-((int64_t)n2));
  int64_t n4 = (((int64_t)n1) + ((int64_t)n3));
  int64_t n5 = (((int64_t)n0) * ((int64_t)n4));
  int64_t n6 = ((int64_t)v[7]);
  int64_t n7 = ((int64_t)v[8]);
  int64_t n8 = (-((int64_t)n7));
  int64_t n9 = ((int64_t)v[10]);
  int64_t n10 = (((int64_t)n8) + ((int64_t)n9));
  int64_t n11 = (((int64_t)n6) * ((int64_t)n10));
  int64_t n12 = ((int64_t)v[8]);
  int64_t n13 = ((int64_t)v[11]);
  int64_t n14 = (((int64_t)n12) * ((int64_t)n13));
  int64_t n15 = ((int64_t)v[9]);
  int64_t n16 = ((int64_t)v[10]);
  int64_t n17 = (-((int64_t)n16));
  int64_t n18 = (((int64_t)n15) * ((int64_t)n17));
  int64_t n19 = (((int64_t)n14) + ((int64_t)n18));
  int64_t n20 = (((int64_t)n11) + ((int64_t)n19));
  int64_t n21 = (((int64_t)n5) + ((int64_t)n20));
  return (((int)(((int64_t)n21) > ((int64_t)0))) - ((int)(((int64_t)n21) < ((int64_t)0))));
}

static int lb37_crossings2(const int64_t *v) {
  int64_t n0 = ((int64_t)v[9]);
  int64_t n1 = ((int64_t)v[11]);
  int64_t n2 = (-((int64_t)n1));
  int64_t n3 = (((int64_t)n0) + ((int64_t)n2));
  return (((int)(((int64_t)n3) > ((int64_t)0))) - ((int)(((int64_t)n3) < ((int64_t)0))));
}

static int lb38_crossings2(const int64_t *v) {
  int64_t n0 = ((int64_t)v[3]);
  int64_t n1 = ((int64_t)v[9]);
  int64_t n2 = (-((int64_t)n1));
  int64_t n3 = ((int64_t)v[11]);
  int64_t n4 = (((int64_t)n2) + ((int64_t)n3));
  int64_t n5 = (((int64_t)n0) * ((int64_t)n4));
  int64_t n6 = ((int64_t)v[7]);
  int64_t n7 = ((int64_t)v[9]);
  int64_t n8 = ((int64_t)v[11]);
  int64_t n9 = (-((int64_t)n8));
  int64_t n10 = (((int64_t)n7) + ((int64_t)n9));
  int64_t n11 = (((int64_t)n6) * ((int64_t)n10));
  int64_t n12 = (((int64_t)n5) + ((int64_t)n11));
  return (((int)(((int64_t)n12) > ((int64_t)0))) - ((int)(((int64_t)n12) < ((int64_t)0))));
}

static int lb39_crossings2(const int64_t *v) {
  int64_t n0 = ((int64_t)v[9]);
  int64_t n1 = (-((int64_t)n0));
  int64_t n2 = ((int64_t)v[11]);
  int64_t n3 = (((int64_t)n1) + ((int64_t)n2));
  return (((int)(((int64_t)n3) > ((int64_t)0))) - ((int)(((int64_t)n3) < ((int64_t)0))));
}

static int lb40_crossings2(const int64_t *v) {
  int64_t n0 = ((int64_t)v[0]);
  int64_t n1 = ((int64_t)v[9]);
  int64_t n2 = ((int64_t)v[11]);
  int64_t n3 = (-((int64_t)n2));
  int64_t n4 = (((int64_t)n1) + ((int64_t)n3));
  int64_t n5 = (((int64_t)n0) * ((int64_t)n4));
  int64_t n6 = ((int64_t)v[1]);
  int64_t n7 = ((int64_t)v[8]);
  int64_t n8 = (-((int64_t)n7));
  int64_t n9 = ((int64_t)v[10]);
  int64_t n10 = (((int64_t)n8) + ((int64_t)n9));
  int64_t n11 = (((int64_t)n6) * ((int64_t)n10));
  int64_t n12 = ((int64_t)v[2]);
  int64_t n13 = ((int64_t)v[9]);
  int64_t n14 = (-((int64_t)n13));
  int64_t n15 = ((int64_t)v[11]);
  int64_t n16 = (((int64_t)n14) + ((int64_t)n15));
  int64_t n17 = (((int64_t)n12) * ((int64_t)n16));
  int64_t n18 = ((int64_t)v[3]);
  int64_t n19 = ((int64_t)v[8]);
  int64_t n20 = ((int64_t)v[10]);
  int64_t n21 = (-((int64_t)n20));
  int64_t n22 = (((int64_t)n19) + ((int64_t)n21));
  int64_t n23 = (((int64_t)n18) * ((int64_t)n22));
  int64_t n24 = (((int64_t)n17) + ((int64_t)n23));
  int64_t n25 = (((int64_t)n11) + ((int64_t)n24));
  int64_t n26 = (((int64_t)n5) + ((int64_t)n25));
  return (((int)(((int64_t)n26) > ((int64_t)0))) - ((int)(((int64_t)n26) < ((int64_t)0))));
}

static int lb41_crossings2(const int64_t *v) {
  int64_t n0 = ((int64_t)v[8]);
  int64_t n1 = ((int64_t)v[10]);
  int64_t n2 = (-((int64_t)n1));
  int64_t n3 = (((int64_t)n0) + ((int64_t)n2));
  return (((int)(((int64_t)n3) > ((int64_t)0))) - ((int)(((int64_t)n3) < ((int64_t)0))));
}

static int lb42_crossings2(const int64_t *v) {
  int64_t n0 = ((int64_t)v[9]);
  int64_t n1 = (-((int64_t)n0));
  int64_t n2 = ((int64_t)v[11]);
  int64_t n3 = (((int64_t)n1) + ((int64_t)n2));
  return (((int)(((int64_t)n3) > ((int64_t)0))) - ((int)(((int64_t)n3) < ((int64_t)0))));
}

static int lb43_crossings2(const int64_t *v) {
  int64_t n0 = ((int64_t)v[8]);
  int64_t n1 = (-((int64_t)n0));
  int64_t n2 = ((int64_t)v[10]);
  int64_t n3 = (((int64_t)n1) + ((int64_t)n2));
  return (((int)(((int64_t)n3) > ((int64_t)0))) - ((int)(((int64_t)n3) < ((int64_t)0))));
}

static int lb44_crossings2(const int64_t *v) {
  int64_t n0 = ((int64_t)v[9]);
  int64_t n1 = ((int64_t)v[11]);
  int64_t n2 = (-((int64_t)n1));
  int64_t n3 = (((int64_t)n0) + ((int64_t)n2));
  return (((int)(((int64_t)n3) > ((int64_t)0))) - ((int)(((int64_t)n3) < ((int64_t)0))));
}

static int lb45_crossings2(const int64_t *v) {
  int64_t n0 = ((int64_t)v[0]);
  int64_t n1 = ((int64_t)v[3]);
  int64_t n2 = ((int64_t)v[4]);
  int64_t n3 = ((int64_t)v[6]);
  int64_t n4 = (-((int64_t)n3));
  int64_t n5 = ((int64_t)n4);
  int64_t n6 = ((int64_t)n5);
  int64_t n7 = (((int64_t)n2) + ((int64_t)n6));
  int64_t n8 = (((int64_t)n1) * ((int64_t)n7));
  int64_t n9 = ((int64_t)v[4]);
  int64_t n10 = ((int64_t)v[7]);
  int64_t n11 = (-((int64_t)n10));
  int64_t n12 = (((int64_t)n9) * ((int64_t)n11));
  int64_t n13 = ((int64_t)v[5]);
  int64_t n14 = ((int64_t)v[6]);
  int64_t n15 = ((int64_t)v[8]);
  int64_t n16 = (-((int64_t)n15));
  int64_t n17 = ((int64_t)n16);
  int64_t n18 = ((int64_t)n17);
  int64_t n19 = (((int64_t)n14) + ((int64_t)n18));
  int64_t n20 = (((int64_t)n13) * ((int64_t)n19));
  int64_t n21 = ((int64_t)v[7]);
  int64_t n22 = ((int64_t)v[8]);
  int64_t n23 = (((int64_t)n21) * ((int64_t)n22));
  int64_t n24 = (((int64_t)n20) + ((int64_t)n23));
  int64_t n25 = (((int64_t)n12) + ((int64_t)n24));
  int64_t n26 = (((int64_t)n8) + ((int64_t)n25));
  __int128 n27 = (((__int128)n0) * ((__int128)n26));
  int64_t n28 = ((int64_t)v[1]);
  int64_t n29 = ((int64_t)v[2]);
  int64_t n30 = ((int64_t)v[4]);
  int64_t n31 = (-((int64_t)n30));
  int64_t n32 = ((int64_t)v[6]);
  int64_t n33 = (((int64_t)n31) + ((int64_t)n32));
  int64_t n34 = (((int64_t)n29) * ((int64_t)n33));
  int64_t n35 = ((int64_t)v[4]);
  int64_t n36 = ((int64_t)v[8]);
  int64_t n37 = (((int64_t)n35) * ((int64_t)n36));
  int64_t n38 = ((int64_t)v[6]);
  int64_t n39 = ((int64_t)n17);
  int64_t n40 = (((int64_t)n38) * ((int64_t)n39));
  int64_t n41 = (((int64_t)n37) + ((int64_t)n40));
  int64_t n42 = (((int64_t)n34) + ((int64_t)n41));
  __int128 n43 = (((__int128)n28) * ((__int128)n42));
  int64_t n44 = ((int64_t)v[2]);
  int64_t n45 = ((int64_t)v[4]);
  int64_t n46 = ((int64_t)v[7]);
  int64_t n47 = (((int64_t)n45) * ((int64_t)n46));
  int64_t n48 = ((int64_t)v[5]);
  int64_t n49 = ((int64_t)n5);
  int64_t n50 = ((int64_t)v[8]);
  int64_t n51 = (((int64_t)n49) + ((int64_t)n50));
  int64_t n52 = (((int64_t)n48) * ((int64_t)n51));
  int64_t n53 = ((int64_t)v[7]);
  int64_t n54 = ((int64_t)n17);
  int64_t n55 = (((int64_t)n53) * ((int64_t)n54));
  int64_t n56 = (((int64_t)n52) + ((int64_t)n55));
  int64_t n57 = (((int64_t)n47) + ((int64_t)n56));
  __int128 n58 = (((__int128)n44) * ((__int128)n57));
  int64_t n59 = ((int64_t)v[3]);
  int64_t n60 = ((int64_t)v[4]);
  int64_t n61 = ((int64_t)n17);
  int64_t n62 = (((int64_t)n60) * ((int64_t)n61));
  int64_t n63 = ((int64_t)v[6]);
  int64_t n64 = ((int64_t)v[8]);
  int64_t n65 = (((int64_t)n63) * ((int64_t)n64));
  int64_t n66 = (((int64_t)n62) + ((int64_t)n65));
  __int128 n67 = (((__int128)n59) * ((__int128)n66));
  __int128 n68 = (((__int128)n58) + ((__int128)n67));
  __int128 n69 = (((__int128)n43) + ((__int128)n68));
  __int128 n70 = (((__int128)n27) + ((__int128)n69));
  return (((int)(((__int128)n70) > ((__int128)0))) - ((int)(((__int128)n70) < ((__int128)0))));
}

static int lb46_crossings2(const int64_t *v) {
  int64_t n0 = ((int64_t)v[0]);
  int64_t n1 = ((int64_t)v[4]);
  int64_t n2 = ((int64_t)v[6]);
  int64_t n3 = (-((int64_t)n2));
  int64_t n4 = (((int64_t)n1) + ((int64_t)n3));
  int64_t n5 = (((int64_t)n0) * ((int64_t)n4));
  int64_t n6 = ((int64_t)v[4]);
  int64_t n7 = ((int64_t)v[8]);
  int64_t n8 = (-((int64_t)n7));
  int64_t n9 = (((int64_t)n6) * ((int64_t)n8));
  int64_t n10 = ((int64_t)v[6]);
  int64_t n11 = ((int64_t)v[8]);
  int64_t n12 = (((int64_t)n10) * ((int64_t)n11));
  int64_t n13 = (((int64_t)n9) + ((int64_t)n12));
  int64_t n14 = (((int64_t)n5) + ((int64_t)n13));
  return (((int)(((int64_t)n14) > ((int64_t)0))) - ((int)(((int64_t)n14) < ((int64_t)0))));
}

static int lb47_crossings2(const int64_t *v) {
  int64_t n0 = ((int64_t)v[1]);
  int64_t n1 = ((int64_t)v[4]);
  int64_t n2 = (-((int64_t)n1));
  int64_t n3 = ((int64_t)v[6]);
  int64_t n4 = (((int64_t)n2) + ((int64_t)n3));
  int64_t n5 = (((int64_t)n0) * ((int64_t)n4));
  int64_t n6 = ((int64_t)v[4]);
  int64_t n7 = ((int64_t)v[7]);
  int64_t n8 = (((int64_t)n6) * ((int64_t)n7));
  int64_t n9 = ((int64_t)v[5]);
  int64_t n10 = ((int64_t)v[6]);
  int64_t n11 = (-((int64_t)n10));
  int64_t n12 = ((int64_t)v[8]);
  int64_t n13 = (((int64_t)n11) + ((int64_t)n12));
  int64_t n14 = (((int64_t)n9) * ((int64_t)n13));
  int64_t n15 = ((int64_t)v[7]);
  int64_t n16 = ((int64_t)v[8]);
  int64_t n17 = (-((int64_t)n16));
  int64_t n18 = (((int64_t)n15) * ((int64_t)n17));
  int64_t n19 = (((int64_t)n14) + ((int64_t)n18));
  int64_t n20 = (((int64_t)n8) + ((int64_t)n19));
  int64_t n21 = (((int64_t)n5) + ((int64_t)n20));
  return (((int)(((int64_t)n21) > ((int64_t)0))) - ((int)(((int64_t)n21) < ((int64_t)0))));
}

static int lb48_crossings2(const int64_t *v) {
  int64_t n0 = ((int64_t)v[2]);
  int64_t n1 = ((int64_t)v[4]);
  int64_t n2 = (-((int64_t)n1));
  int64_t n3 = ((int64_t)v[6]);
  int64_t n4 = (((int64_t)n2) + ((int64_t)n3));
  int64_t n5 = (((int64_t)n0) * ((int64_t)n4));
  int64_t n6 = ((int64_t)v[4]);
  int64_t n7 = ((int64_t)v[8]);
  int64_t n8 = (((int64_t)n6) * ((int64_t)n7));
  int64_t n9 = ((int64_t)v[6]);
  int64_t n10 = ((int64_t)v[8]);
  int64_t n11 = (-((int64_t)n10));
  int64_t n12 = (((int64_t)n9) * ((int64_t)n11));
  int64_t n13 = (((int64_t)n8) + ((int64_t)n12));
  int64_t n14 = (((int64_t)n5) + ((int64_t)n13));
  return (((int)(((int64_t)n14) > ((int64_t)0))) - ((int)(((int64_t)n14) < ((int64_t)0))));
}

static int lb49_crossings2(const int64_t *v) {
  int64_t n0 = ((int64_t)v[4]);
  int64_t n1 = (-((int64_t)n0));
  int64_t n2 = ((int64_t)v[6]);
  int64_t n3 = (((int64_t)n1) + ((int64_t)n2));
  return (((int)(((int64_t)n3) > ((int64_t)0))) - ((int)(((int64_t)n3) < ((int64_t)0))));
}

static int lb50_crossings2(const int64_t *v) {
  int64_t n0 = ((int64_t)v[3]);
  int64_t n1 = ((int64_t)v[4]);
  int64_t n2 = ((int64_t)v[6]);
  int64_t n3 = (-((int64_t)n2));
  int64_t n4 = (((int64_t)n1) + ((int64_t)n3));
  int64_t n5 = (((int64_t)n0) * ((int64_t)n4));
  int64_t n6 = ((int64_t)v[4]);
  int64_t n7 = ((int64_t)v[7]);
  int64_t n8 = (-((int64_t)n7));
  int64_t n9 = (((int64_t)n6) * ((int64_t)n8));
  int64_t n10 = ((int64_t)v[5]);
  int64_t n11 = ((int64_t)v[6]);
  int64_t n12 = ((int64_t)v[8]);
  int64_t n13 = (-((int64_t)n12));
  int64_t n14 = (((int64_t)n11) + ((int64_t)n13));
  int64_t n15 = (((int64_t)n10) * ((int64_t)n14));
  int64_t n16 = ((int64_t)v[7]);
  int64_t n17 = ((int64_t)v[8]);
  int64_t n18 = (((int64_t)n16) * ((int64_t)n17));
  int64_t n19 = (((int64_t)n15) + ((int64_t)n18));
  int64_t n20 = (((int64_t)n9) + ((int64_t)n19));
  int64_t n21 = (((int64_t)n5) + ((int64_t)n20));
  return (((int)(((int64_t)n21) > ((int64_t)0))) - ((int)(((int64_t)n21) < ((int64_t)0))));
}

static int lb51_crossings2(const int64_t *v) {
  int64_t n0 = ((int64_t)v[4]);
  int64_t n1 = ((int64_t)v[6]);
  int64_t n2 = (-((int64_t)n1));
  int64_t n3 = (((int64_t)n0) + ((int64_t)n2));
  return (((int)(((int64_t)n3) > ((int64_t)0))) - ((int)(((int64_t)n3) < ((int64_t)0))));
}

static int lb52_crossings2(const int64_t *v) {
  int64_t n0 = ((int64_t)v[0]);
  int64_t n1 = ((int64_t)v[4]);
  int64_t n2 = (-((int64_t)n1));
  int64_t n3 = ((int64_t)v[8]);
  int64_t n4 = (((int64_t)n2) + ((int64_t)n3));
  int64_t n5 = (((int64_t)n0) * ((int64_t)n4));
  int64_t n6 = ((int64_t)v[2]);
  int64_t n7 = ((int64_t)v[4]);
  int64_t n8 = ((int64_t)v[8]);
  int64_t n9 = (-((int64_t)n8));
  int64_t n10 = (((int64_t)n7) + ((int64_t)n9));
  int64_t n11 = (((int64_t)n6) * ((int64_t)n10));
  int64_t n12 = (((int64_t)n5) + ((int64_t)n11));
  return (((int)(((int64_t)n12) > ((int64_t)0))) - ((int)(((int64_t)n12) < ((int64_t)0))));
}

static int lb53_crossings2(const int64_t *v) {
  int64_t n0 = ((int64_t)v[4]);
  int64_t n1 = ((int64_t)v[8]);
  int64_t n2 = (-((int64_t)n1));
  int64_t n3 = (((int64_t)n0) + ((int64_t)n2));
  return (((int)(((int64_t)n3) > ((int64_t)0))) - ((int)(((int64_t)n3) < ((int64_t)0))));
}

static int lb54_crossings2(const int64_t *v) {
  int64_t n0 = ((int64_t)v[4]);
  int64_t n1 = (-((int64_t)n0));
  int64_t n2 = ((int64_t)v[8]);
  int64_t n3 = (((int64_t)n1) + ((int64_t)n2));
  return (((int)(((int64_t)n3) > ((int64_t)0))) - ((int)(((int64_t)n3) < ((int64_t)0))));
}

static int lb55_crossings2(const int64_t *v) {
  int64_t n0 = ((int64_t)v[0]);
  int64_t n1 = ((int64_t)v[3]);
  int64_t n2 = (-((int64_t)n1));
  int64_t n3 = ((int64_t)v[5]);
  int64_t n4 = (((int64_t)n2) + ((int64_t)n3));
  int64_t n5 = (((int64_t)n0) * ((int64_t)n4));
  int64_t n6 = ((int64_t)v[1]);
  int64_t n7 = ((int64_t)v[2]);
  int64_t n8 = ((int64_t)v[8]);
  int64_t n9 = (-((int64_t)n8));
  int64_t n10 = (((int64_t)n7) + ((int64_t)n9));
  int64_t n11 = (((int64_t)n6) * ((int64_t)n10));
  int64_t n12 = ((int64_t)v[2]);
  int64_t n13 = ((int64_t)v[5]);
  int64_t n14 = (-((int64_t)n13));
  int64_t n15 = (((int64_t)n12) * ((int64_t)n14));
  int64_t n16 = ((int64_t)v[3]);
  int64_t n17 = ((int64_t)v[8]);
  int64_t n18 = (((int64_t)n16) * ((int64_t)n17));
  int64_t n19 = (((int64_t)n15) + ((int64_t)n18));
  int64_t n20 = (((int64_t)n11) + ((int64_t)n19));
  int64_t n21 = (((int64_t)n5) + ((int64_t)n20));
  return (((int)(((int64_t)n21) > ((int64_t)0))) - ((int)(((int64_t)n21) < ((int64_t)0))));
}

static int lb56_crossings2(const int64_t *v) {
  int64_t n0 = ((int64_t)v[0]);
  int64_t n1 = (-((int64_t)n0));
  int64_t n2 = ((int64_t)v[8]);
  int64_t n3 = (((int64_t)n1) + ((int64_t)n2));
  return (((int)(((int64_t)n3) > ((int64_t)0))) - ((int)(((int64_t)n3) < ((int64_t)0))));
}

static int lb57_crossings2(const int64_t *v) {
  int64_t n0 = ((int64_t)v[1]);
  int64_t n1 = ((int64_t)v[5]);
  int64_t n2 = (-((int64_t)n1));
  int64_t n3 = (((int64_t)n0) + ((int64_t)n2));
  return (((int)(((int64_t)n3) > ((int64_t)0))) - ((int)(((int64_t)n3) < ((int64_t)0))));
}

static int lb58_crossings2(const int64_t *v) {
  int64_t n0 = ((int64_t)v[2]);
  int64_t n1 = ((int64_t)v[8]);
  int64_t n2 = (-((int64_t)n1));
  int64_t n3 = (((int64_t)n0) + ((int64_t)n2));
  return (((int)(((int64_t)n3) > ((int64_t)0))) - ((int)(((int64_t)n3) < ((int64_t)0))));
}

static int lb59_crossings2(const int64_t *v) {
  if (((int)0)) {
    return ((int)v[0]);
  }
  int64_t n0 = ((int64_t)((int64_t)1));
  return (((int)(((int64_t)n0) > ((int64_t)0))) - ((int)(((int64_t)n0) < ((int64_t)0))));
}

int la_crossings2(const int64_t *x, const int64_t *v) {
  {
    int answer = ((int)lb0_crossings2(v));
    if ((((int)answer) != ((int)0))) {
      return ((int)answer);
    }
  }
  {
    int answer = ((int)lb1_crossings2(v));
    if ((((int)answer) != ((int)0))) {
      return ((int)answer);
    }
  }
  {
    int answer = ((int)lb2_crossings2(v));
    if ((((int)answer) != ((int)0))) {
      return ((int)answer);
    }
  }
  {
    int answer = ((int)lb3_crossings2(v));
    if ((((int)answer) != ((int)0))) {
      return ((int)answer);
    }
  }
  {
    int answer = ((int)lb4_crossings2(v));
    if ((((int)answer) != ((int)0))) {
      return ((int)answer);
    }
  }
  {
    int answer = ((int)lb5_crossings2(v));
    if ((((int)answer) != ((int)0))) {
      return ((int)answer);
    }
  }
  {
    int answer = ((int)lb6_crossings2(v));
    if ((((int)answer) != ((int)0))) {
      return ((int)answer);
    }
  }
  {
    int answer = ((int)lb7_crossings2(v));
    if ((((int)answer) != ((int)0))) {
      return ((int)answer);
    }
  }
  {
    int answer = ((int)lb8_crossings2(v));
    if ((((int)answer) != ((int)0))) {
      return ((int)answer);
    }
  }
  {
    int answer = ((int)lb9_crossings2(v));
    if ((((int)answer) != ((int)0))) {
      return ((int)answer);
    }
  }
  {
    int answer = ((int)lb10_crossings2(v));
    if ((((int)answer) != ((int)0))) {
      return ((int)answer);
    }
  }
  {
    int answer = ((int)lb11_crossings2(v));
    if ((((int)answer) != ((int)0))) {
      return ((int)answer);
    }
  }
  {
    int answer = ((int)lb12_crossings2(v));
    if ((((int)answer) != ((int)0))) {
      return ((int)answer);
    }
  }
  {
    int answer = ((int)lb13_crossings2(v));
    if ((((int)answer) != ((int)0))) {
      return ((int)answer);
    }
  }
  {
    int answer = ((int)lb14_crossings2(v));
    if ((((int)answer) != ((int)0))) {
      return ((int)answer);
    }
  }
  {
    int answer = ((int)lb15_crossings2(v));
    if ((((int)answer) != ((int)0))) {
      return ((int)answer);
    }
  }
  {
    int answer = ((int)lb16_crossings2(v));
    if ((((int)answer) != ((int)0))) {
      return ((int)answer);
    }
  }
  {
    int answer = ((int)lb17_crossings2(v));
    if ((((int)answer) != ((int)0))) {
      return ((int)answer);
    }
  }
  {
    int answer = ((int)lb18_crossings2(v));
    if ((((int)answer) != ((int)0))) {
      return ((int)answer);
    }
  }
  {
    int answer = ((int)lb19_crossings2(v));
    if ((((int)answer) != ((int)0))) {
      return ((int)answer);
    }
  }
  {
    int answer = ((int)lb20_crossings2(v));
    if ((((int)answer) != ((int)0))) {
      return ((int)answer);
    }
  }
  {
    int answer = ((int)lb21_crossings2(v));
    if ((((int)answer) != ((int)0))) {
      return ((int)answer);
    }
  }
  {
    int answer = ((int)lb22_crossings2(v));
    if ((((int)answer) != ((int)0))) {
      return ((int)answer);
    }
  }
  {
    int answer = ((int)lb23_crossings2(v));
    if ((((int)answer) != ((int)0))) {
      return ((int)answer);
    }
  }
  {
    int answer = ((int)lb24_crossings2(v));
    if ((((int)answer) != ((int)0))) {
      return ((int)answer);
    }
  }
  {
    int answer = ((int)lb25_crossings2(v));
    if ((((int)answer) != ((int)0))) {
      return ((int)answer);
    }
  }
  {
    int answer = ((int)lb26_crossings2(v));
    if ((((int)answer) != ((int)0))) {
      return ((int)answer);
    }
  }
  {
    int answer = ((int)lb27_crossings2(v));
    if ((((int)answer) != ((int)0))) {
      return ((int)answer);
    }
  }
  {
    int answer = ((int)lb28_crossings2(v));
    if ((((int)answer) != ((int)0))) {
      return ((int)answer);
    }
  }
  {
    int answer = ((int)lb29_crossings2(v));
    if ((((int)answer) != ((int)0))) {
      return ((int)answer);
    }
  }
  {
    int answer = ((int)lb30_crossings2(v));
    if ((((int)answer) != ((int)0))) {
      return ((int)answer);
    }
  }
  {
    int answer = ((int)lb31_crossings2(v));
    if ((((int)answer) != ((int)0))) {
      return ((int)answer);
    }
  }
  {
    int answer = ((int)lb32_crossings2(v));
    if ((((int)answer) != ((int)0))) {
      return ((int)answer);
    }
  }
  {
    int answer = ((int)lb33_crossings2(v));
    if ((((int)answer) != ((int)0))) {
      return ((int)answer);
    }
  }
  {
    int answer = ((int)lb34_crossings2(v));
    if ((((int)answer) != ((int)0))) {
      return ((int)answer);
    }
  }
  {
    int answer = ((int)lb35_crossings2(v));
    if ((((int)answer) != ((int)0))) {
      return ((int)answer);
    }
  }
  {
    int answer = ((int)lb36_crossings2(v));
    if ((((int)answer) != ((int)0))) {
      return ((int)answer);
    }
  }
  {
    int answer = ((int)lb37_crossings2(v));
    if ((((int)answer) != ((int)0))) {
      return ((int)answer);
    }
  }
  {
    int answer = ((int)lb38_crossings2(v));
    if ((((int)answer) != ((int)0))) {
      return ((int)answer);
    }
  }
  {
    int answer = ((int)lb39_crossings2(v));
    if ((((int)answer) != ((int)0))) {
      return ((int)answer);
    }
  }
  {
    int answer = ((int)lb40_crossings2(v));
    if ((((int)answer) != ((int)0))) {
      return ((int)answer);
    }
  }
  {
    int answer = ((int)lb41_crossings2(v));
    if ((((int)answer) != ((int)0))) {
      return ((int)answer);
    }
  }
  {
    int answer = ((int)lb42_crossings2(v));
    if ((((int)answer) != ((int)0))) {
      return ((int)answer);
    }
  }
  {
    int answer = ((int)lb43_crossings2(v));
    if ((((int)answer) != ((int)0))) {
      return ((int)answer);
    }
  }
  {
    int answer = ((int)lb44_crossings2(v));
    if ((((int)answer) != ((int)0))) {
      return ((int)answer);
    }
  }
  {
    int answer = ((int)lb45_crossings2(v));
    if ((((int)answer) != ((int)0))) {
      return ((int)answer);
    }
  }
  {
    int answer = ((int)lb46_crossings2(v));
    if ((((int)answer) != ((int)0))) {
      return ((int)answer);
    }
  }
  {
    int answer = ((int)lb47_crossings2(v));
    if ((((int)answer) != ((int)0))) {
      return ((int)answer);
    }
  }
  {
    int answer = ((int)lb48_crossings2(v));
    if ((((int)answer) != ((int)0))) {
      return ((int)answer);
    }
  }
  {
    int answer = ((int)lb49_crossings2(v));
    if ((((int)answer) != ((int)0))) {
      return ((int)answer);
    }
  }
  {
    int answer = ((int)lb50_crossings2(v));
    if ((((int)answer) != ((int)0))) {
      return ((int)answer);
    }
  }
  {
    int answer = ((int)lb51_crossings2(v));
    if ((((int)answer) != ((int)0))) {
      return ((int)answer);
    }
  }
  {
    int answer = ((int)lb52_crossings2(v));
    if ((((int)answer) != ((int)0))) {
      return ((int)answer);
    }
  }
  {
    int answer = ((int)lb53_crossings2(v));
    if ((((int)answer) != ((int)0))) {
      return ((int)answer);
    }
  }
  {
    int answer = ((int)lb54_crossings2(v));
    if ((((int)answer) != ((int)0))) {
      return ((int)answer);
    }
  }
  {
    int answer = ((int)lb55_crossings2(v));
    if ((((int)answer) != ((int)0))) {
      return ((int)answer);
    }
  }
  {
    int answer = ((int)lb56_crossings2(v));
    if ((((int)answer) != ((int)0))) {
      return ((int)answer);
    }
  }
  {
    int answer = ((int)lb57_crossings2(v));
    if ((((int)answer) != ((int)0))) {
      return ((int)answer);
    }
  }
  {
    int answer = ((int)lb58_crossings2(v));
    if ((((int)answer) != ((int)0))) {
      return ((int)answer);
    }
  }
  {
    int answer = ((int)lb59_crossings2(v));
    if ((((int)answer) != ((int)0))) {
      return ((int)answer);
    }
  }
  if ((((int64_t)x[0]) < ((int64_t)x[1]))) {
    if ((((int64_t)x[0]) < ((int64_t)x[2]))) {
      if ((((int64_t)x[1]) < ((int64_t)x[2]))) {
        return ((int)0);
      }
      return ((int)0);
    }
  }
  if ((((int64_t)x[1]) < ((int64_t)x[2]))) {
    if ((((int64_t)x[0]) < ((int64_t)x[2]))) {
      return ((int)0);
    }
    return ((int)0);
  }
  if ((((int64_t)x[0]) < ((int64_t)x[1]))) {
    return ((int)0);
  }
  return ((int)0);
}
