#include <stdint.h>

static int lb0_left(const int64_t *v) {
  int64_t n0 = ((int64_t)v[0]);
  int64_t n1 = ((int64_t)v[4]);
  int64_t n2 = (((int64_t)n0) - ((int64_t)n1));
  int64_t n3 = ((int64_t)v[3]);
  int64_t n4 = ((int64_t)v[5]);
  int64_t n5 = (((int64_t)n3) - ((int64_t)n4));
  int64_t n6 = (((int64_t)n2) * ((int64_t)n5));
  int64_t n7 = ((int64_t)v[1]);
  int64_t n8 = ((int64_t)v[5]);
  int64_t n9 = (((int64_t)n7) - ((int64_t)n8));
  int64_t n10 = ((int64_t)v[2]);
  int64_t n11 = ((int64_t)v[4]);
  int64_t n12 = (((int64_t)n10) - ((int64_t)n11));
  int64_t n13 = (((int64_t)n9) * ((int64_t)n12));
  int64_t n14 = (((int64_t)n6) - ((int64_t)n13));
  return (((int)(((int64_t)n14) > ((int64_t)0))) - ((int)(((int64_t)n14) < ((int64_t)0))));
}

static int lb1_left(const int64_t *v) {
  int64_t n0 = ((int64_t)v[2]);
  int64_t n1 = (-((int64_t)n0));
  int64_t n2 = ((int64_t)v[4]);
  int64_t n3 = (((int64_t)n1) + ((int64_t)n2));
  return (((int)(((int64_t)n3) > ((int64_t)0))) - ((int)(((int64_t)n3) < ((int64_t)0))));
}

static int lb2_left(const int64_t *v) {
  int64_t n0 = ((int64_t)v[3]);
  int64_t n1 = ((int64_t)v[5]);
  int64_t n2 = (-((int64_t)n1));
  int64_t n3 = (((int64_t)n0) + ((int64_t)n2));
  return (((int)(((int64_t)n3) > ((int64_t)0))) - ((int)(((int64_t)n3) < ((int64_t)0))));
}

static int lb3_left(const int64_t *v) {
  int64_t n0 = ((int64_t)v[0]);
  int64_t n1 = ((int64_t)v[4]);
  int64_t n2 = (-((int64_t)n1));
  int64_t n3 = (((int64_t)n0) + ((int64_t)n2));
  return (((int)(((int64_t)n3) > ((int64_t)0))) - ((int)(((int64_t)n3) < ((int64_t)0))));
}

static int lb4_left(const int64_t *v) {
  if (((int)0)) {
    return ((int)v[0]);
  }
  int64_t n0 = ((int64_t)((int64_t)1));
  return (((int)(((int64_t)n0) > ((int64_t)0))) - ((int)(((int64_t)n0) < ((int64_t)0))));
}

int la_left(const int64_t *x, const int64_t *v) {
  {
    int answer = ((int)lb0_left(v));
    if ((((int)answer) != ((int)0))) {
      return ((int)answer);
    }
  }
  {
    int answer = ((int)lb1_left(v));
    if ((((int)answer) != ((int)0))) {
      return ((int)answer);
    }
  }
  {
    int answer = ((int)lb2_left(v));
    if ((((int)answer) != ((int)0))) {
      return ((int)answer);
    }
  }
  {
    int answer = ((int)lb3_left(v));
    if ((((int)answer) != ((int)0))) {
      return ((int)answer);
    }
  }
  {
    int answer = ((int)lb4_left(v));
    if ((((int)answer) != ((int)0))) {
      return ((int)answer);
    }
  }
  if ((((int64_t)x[0]) < ((int64_t)x[1]))) {
    if ((((int64_t)x[0]) < ((int64_t)x[2]))) {
      if ((((int64_t)x[1]) < ((int64_t)x[2]))) {
        return ((int)0);
      }
      return ((int)0);
    }
  }
  if ((((int64_t)x[1]) < ((int64_t)x[2]))) {
    if ((((int64_t)x[0]) < ((int64_t)x[2]))) {
      return ((int)0);
    }
    return ((int)0);
  }
  if ((((int64_t)x[0]) < ((int64_t)x[1]))) {
    return ((int)0);
  }
  return ((int)0);
}

static int lb0_near(const int64_t *v) {
  int64_t n0 = ((int64_t)v[2]);
  int64_t n1 = ((int64_t)v[0]);
  int64_t n2 = ((int64_t)v[3]);
  int64_t n3 = (((int64_t)n1) - ((int64_t)n2));
  int64_t n4 = ((int64_t)n3);
  int64_t n5 = ((int64_t)n4);
  int64_t n6 = ((int64_t)n4);
  int64_t n7 = (((int64_t)n5) * ((int64_t)n6));
  int64_t n8 = (((int64_t)n0) - ((int64_t)n7));
  int64_t n9 = ((int64_t)v[1]);
  int64_t n10 = ((int64_t)v[4]);
  int64_t n11 = (((int64_t)n9) - ((int64_t)n10));
  int64_t n12 = ((int64_t)n11);
  int64_t n13 = ((int64_t)n12);
  int64_t n14 = ((int64_t)n12);
  int64_t n15 = (((int64_t)n13) * ((int64_t)n14));
  int64_t n16 = (((int64_t)n8) - ((int64_t)n15));
  return (((int)(((int64_t)n16) > ((int64_t)0))) - ((int)(((int64_t)n16) < ((int64_t)0))));
}

static int lb1_near(const int64_t *v) {
  int64_t n0 = ((int64_t)v[1]);
  int64_t n1 = ((int64_t)(-((int64_t)2)));
  int64_t n2 = (((int64_t)n0) * ((int64_t)n1));
  int64_t n3 = ((int64_t)v[4]);
  int64_t n4 = ((int64_t)((int64_t)2));
  int64_t n5 = (((int64_t)n3) * ((int64_t)n4));
  int64_t n6 = (((int64_t)n2) + ((int64_t)n5));
  return (((int)(((int64_t)n6) > ((int64_t)0))) - ((int)(((int64_t)n6) < ((int64_t)0))));
}

static int lb2_near(const int64_t *v) {
  if (((int)0)) {
    return ((int)v[0]);
  }
  int64_t n0 = ((int64_t)(-((int64_t)1)));
  return (((int)(((int64_t)n0) > ((int64_t)0))) - ((int)(((int64_t)n0) < ((int64_t)0))));
}

int ls_near(const int64_t *x, const int64_t *v) {
  {
    int answer = ((int)lb0_near(v));
    if ((((int)answer) != ((int)0))) {
      return ((int)answer);
    }
  }
  {
    int answer = ((int)lb1_near(v));
    if ((((int)answer) != ((int)0))) {
      return ((int)answer);
    }
  }
  {
    int answer = ((int)lb2_near(v));
    if ((((int)answer) != ((int)0))) {
      return ((int)answer);
    }
  }
  if ((((int64_t)x[0]) < ((int64_t)x[1]))) {
    return ((int)0);
  }
  return ((int)0);
}

static int lb0_large(const int64_t *v) {
  int64_t n0 = ((int64_t)v[1]);
  int64_t n1 = ((int64_t)v[2]);
  int64_t n2 = (((int64_t)n0) * ((int64_t)n1));
  int64_t n3 = ((int64_t)v[3]);
  int64_t n4 = ((int64_t)v[4]);
  int64_t n5 = (((int64_t)n3) * ((int64_t)n4));
  int64_t n6 = (((int64_t)n2) + ((int64_t)n5));
  int64_t n7 = ((int64_t)v[6]);
  int64_t n8 = ((int64_t)v[7]);
  int64_t n9 = (((int64_t)n7) * ((int64_t)n8));
  int64_t n10 = (((int64_t)n6) + ((int64_t)n9));
  int64_t n11 = ((int64_t)v[5]);
  int64_t n12 = ((int64_t)((int64_t)1));
  int64_t n13 = (((int64_t)n11) + ((int64_t)n12));
  int64_t n14 = (((int64_t)n10) * ((int64_t)n13));
  int64_t n15 = ((int64_t)v[0]);
  int64_t n16 = (((int64_t)n14) - ((int64_t)n15));
  return (((int)(((int64_t)n16) > ((int64_t)0))) - ((int)(((int64_t)n16) < ((int64_t)0))));
}

static int lb1_large(const int64_t *v) {
  int64_t n0 = ((int64_t)v[1]);
  int64_t n1 = ((int64_t)v[5]);
  int64_t n2 = ((int64_t)((int64_t)1));
  int64_t n3 = (((int64_t)n1) + ((int64_t)n2));
  int64_t n4 = (((int64_t)n0) * ((int64_t)n3));
  return (((int)(((int64_t)n4) > ((int64_t)0))) - ((int)(((int64_t)n4) < ((int64_t)0))));
}

static int lb2_large(const int64_t *v) {
  int64_t n0 = ((int64_t)v[2]);
  int64_t n1 = ((int64_t)v[5]);
  int64_t n2 = ((int64_t)((int64_t)1));
  int64_t n3 = (((int64_t)n1) + ((int64_t)n2));
  int64_t n4 = (((int64_t)n0) * ((int64_t)n3));
  return (((int)(((int64_t)n4) > ((int64_t)0))) - ((int)(((int64_t)n4) < ((int64_t)0))));
}

static int lb3_large(const int64_t *v) {
  int64_t n0 = ((int64_t)v[5]);
  int64_t n1 = ((int64_t)((int64_t)1));
  int64_t n2 = (((int64_t)n0) + ((int64_t)n1));
  return (((int)(((int64_t)n2) > ((int64_t)0))) - ((int)(((int64_t)n2) < ((int64_t)0))));
}

static int lb4_large(const int64_t *v) {
  int64_t n0 = ((int64_t)v[3]);
  int64_t n1 = ((int64_t)v[5]);
  int64_t n2 = ((int64_t)((int64_t)1));
  int64_t n3 = (((int64_t)n1) + ((int64_t)n2));
  int64_t n4 = (((int64_t)n0) * ((int64_t)n3));
  return (((int)(((int64_t)n4) > ((int64_t)0))) - ((int)(((int64_t)n4) < ((int64_t)0))));
}

static int lb5_large(const int64_t *v) {
  int64_t n0 = ((int64_t)v[4]);
  int64_t n1 = ((int64_t)v[5]);
  int64_t n2 = ((int64_t)((int64_t)1));
  int64_t n3 = (((int64_t)n1) + ((int64_t)n2));
  int64_t n4 = (((int64_t)n0) * ((int64_t)n3));
  return (((int)(((int64_t)n4) > ((int64_t)0))) - ((int)(((int64_t)n4) < ((int64_t)0))));
}

static int lb6_large(const int64_t *v) {
  int64_t n0 = ((int64_t)v[5]);
  int64_t n1 = ((int64_t)((int64_t)1));
  int64_t n2 = (((int64_t)n0) + ((int64_t)n1));
  return (((int)(((int64_t)n2) > ((int64_t)0))) - ((int)(((int64_t)n2) < ((int64_t)0))));
}

static int lb7_large(const int64_t *v) {
  int64_t n0 = ((int64_t)v[5]);
  int64_t n1 = ((int64_t)v[6]);
  int64_t n2 = (((int64_t)n0) * ((int64_t)n1));
  int64_t n3 = ((int64_t)v[6]);
  int64_t n4 = (((int64_t)n2) + ((int64_t)n3));
  return (((int)(((int64_t)n4) > ((int64_t)0))) - ((int)(((int64_t)n4) < ((int64_t)0))));
}

static int lb8_large(const int64_t *v) {
  int64_t n0 = ((int64_t)v[5]);
  int64_t n1 = ((int64_t)v[7]);
  int64_t n2 = (((int64_t)n0) * ((int64_t)n1));
  int64_t n3 = ((int64_t)v[7]);
  int64_t n4 = (((int64_t)n2) + ((int64_t)n3));
  return (((int)(((int64_t)n4) > ((int64_t)0))) - ((int)(((int64_t)n4) < ((int64_t)0))));
}

static int lb9_large(const int64_t *v) {
  int64_t n0 = ((int64_t)v[5]);
  int64_t n1 = ((int64_t)((int64_t)1));
  int64_t n2 = (((int64_t)n0) + ((int64_t)n1));
  return (((int)(((int64_t)n2) > ((int64_t)0))) - ((int)(((int64_t)n2) < ((int64_t)0))));
}

int ls_large(const int64_t *x, const int64_t *v) {
  {
    int answer = ((int)lb0_large(v));
    if ((((int)answer) != ((int)0))) {
      return ((int)answer);
    }
  }
  {
    int answer = ((int)lb1_large(v));
    if ((((int)answer) != ((int)0))) {
      return ((int)answer);
    }
  }
  {
    int answer = ((int)lb2_large(v));
    if ((((int)answer) != ((int)0))) {
      return ((int)answer);
    }
  }
  {
    int answer = ((int)lb3_large(v));
    if ((((int)answer) != ((int)0))) {
      return ((int)answer);
    }
  }
  {
    int answer = ((int)lb4_large(v));
    if ((((int)answer) != ((int)0))) {
      return ((int)answer);
    }
  }
  {
    int answer = ((int)lb5_large(v));
    if ((((int)answer) != ((int)0))) {
      return ((int)answer);
    }
  }
  {
    int answer = ((int)lb6_large(v));
    if ((((int)answer) != ((int)0))) {
      return ((int)answer);
    }
  }
  {
    int answer = ((int)lb7_large(v));
    if ((((int)answer) != ((int)0))) {
      return ((int)answer);
    }
  }
  {
    int answer = ((int)lb8_large(v));
    if ((((int)answer) != ((int)0))) {
      return ((int)answer);
    }
  }
  {
    int answer = ((int)lb9_large(v));
    if ((((int)answer) != ((int)0))) {
      return ((int)answer);
    }
  }
  if ((((int64_t)x[0]) < ((int64_t)x[1]))) {
    if ((((int64_t)x[0]) < ((int64_t)x[2]))) {
      if ((((int64_t)x[1]) < ((int64_t)x[2]))) {
        return ((int)0);
      }
      return ((int)0);
    }
  }
  if ((((int64_t)x[1]) < ((int64_t)x[2]))) {
    if ((((int64_t)x[0]) < ((int64_t)x[2]))) {
      return ((int)0);
    }
    return ((int)0);
  }
  if ((((int64_t)x[0]) < ((int64_t)x[1]))) {
    return ((int)0);
  }
  return ((int)0);
}

static int lb0_behind(const int64_t *v) {
  int64_t n0 = ((int64_t)v[0]);
  int64_t n1 = ((int64_t)((int64_t)2));
  int64_t n2 = ((int64_t)v[2]);
  int64_t n3 = (((int64_t)n1) * ((int64_t)n2));
  int64_t n4 = (((int64_t)n0) - ((int64_t)n3));
  return (((int)(((int64_t)n4) > ((int64_t)0))) - ((int)(((int64_t)n4) < ((int64_t)0))));
}

static int lb1_behind(const int64_t *v) {
  if (((int)0)) {
    return ((int)v[0]);
  }
  int64_t n0 = ((int64_t)((int64_t)1));
  return (((int)(((int64_t)n0) > ((int64_t)0))) - ((int)(((int64_t)n0) < ((int64_t)0))));
}

static int lb2_behind(const int64_t *v) {
  if (((int)0)) {
    return ((int)v[0]);
  }
  int64_t n0 = ((int64_t)(-((int64_t)2)));
  return (((int)(((int64_t)n0) > ((int64_t)0))) - ((int)(((int64_t)n0) < ((int64_t)0))));
}

int ln_behind(const int64_t *x, const int64_t *v) {
  {
    int answer = ((int)lb0_behind(v));
    if ((((int)answer) != ((int)0))) {
      return ((int)answer);
    }
  }
  if ((((int64_t)x[0]) < ((int64_t)x[1]))) {
    {
      int answer = ((int)lb1_behind(v));
      if ((((int)answer) != ((int)0))) {
        return ((int)answer);
      }
    }
    return ((int)0);
  }
  {
    int answer = ((int)lb2_behind(v));
    if ((((int)answer) != ((int)0))) {
      return ((int)answer);
    }
  }
  return ((int)0);
}

static int lb0_alone(const int64_t *v) {
  int64_t n0 = ((int64_t)v[0]);
  int64_t n1 = ((int64_t)v[1]);
  int64_t n2 = (((int64_t)n0) * ((int64_t)n1));
  return (((int)(((int64_t)n2) > ((int64_t)0))) - ((int)(((int64_t)n2) < ((int64_t)0))));
}

static int lb1_alone(const int64_t *v) {
  int64_t n0 = ((int64_t)v[0]);
  return (((int)(((int64_t)n0) > ((int64_t)0))) - ((int)(((int64_t)n0) < ((int64_t)0))));
}

static int lb2_alone(const int64_t *v) {
  int64_t n0 = ((int64_t)v[1]);
  return (((int)(((int64_t)n0) > ((int64_t)0))) - ((int)(((int64_t)n0) < ((int64_t)0))));
}

static int lb3_alone(const int64_t *v) {
  if (((int)0)) {
    return ((int)v[0]);
  }
  int64_t n0 = ((int64_t)((int64_t)1));
  return (((int)(((int64_t)n0) > ((int64_t)0))) - ((int)(((int64_t)n0) < ((int64_t)0))));
}

int ln_alone(const int64_t *x, const int64_t *v) {
  if (((int)0)) {
    return ((int)x[0]);
  }
  {
    int answer = ((int)lb0_alone(v));
    if ((((int)answer) != ((int)0))) {
      return ((int)answer);
    }
  }
  {
    int answer = ((int)lb1_alone(v));
    if ((((int)answer) != ((int)0))) {
      return ((int)answer);
    }
  }
  {
    int answer = ((int)lb2_alone(v));
    if ((((int)answer) != ((int)0))) {
      return ((int)answer);
    }
  }
  {
    int answer = ((int)lb3_alone(v));
    if ((((int)answer) != ((int)0))) {
      return ((int)answer);
    }
  }
  return ((int)0);
}
