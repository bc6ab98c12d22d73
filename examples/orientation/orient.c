#include <stdint.h>

static int lf_orient(const int64_t *v) {
  int64_t n0 = ((int64_t)v[0]);
  int64_t n1 = ((int64_t)v[4]);
  int64_t n2 = (((int64_t)n0) - ((int64_t)n1));
  int64_t n3 = ((int64_t)v[3]);
  int64_t n4 = ((int64_t)v[5]);
  int64_t n5 = (((int64_t)n3) - ((int64_t)n4));
  int64_t n6 = (((int64_t)n2) * ((int64_t)n5));
  int64_t n7 = ((int64_t)v[1]);
  int64_t n8 = ((int64_t)v[5]);
  int64_t n9 = (((int64_t)n7) - ((int64_t)n8));
  int64_t n10 = ((int64_t)v[2]);
  int64_t n11 = ((int64_t)v[4]);
  int64_t n12 = (((int64_t)n10) - ((int64_t)n11));
  int64_t n13 = (((int64_t)n9) * ((int64_t)n12));
  int64_t n14 = (((int64_t)n6) - ((int64_t)n13));
  return (((int)(((int64_t)n14) > ((int64_t)0))) - ((int)(((int64_t)n14) < ((int64_t)0))));
}

static int lb0_orient(const int64_t *v) {
  int64_t n0 = ((int64_t)v[0]);
  int64_t n1 = ((int64_t)v[4]);
  int64_t n2 = (((int64_t)n0) - ((int64_t)n1));
  int64_t n3 = ((int64_t)v[3]);
  int64_t n4 = ((int64_t)v[5]);
  int64_t n5 = (((int64_t)n3) - ((int64_t)n4));
  int64_t n6 = (((int64_t)n2) * ((int64_t)n5));
  int64_t n7 = ((int64_t)v[1]);
  int64_t n8 = ((int64_t)v[5]);
  int64_t n9 = (((int64_t)n7) - ((int64_t)n8));
  int64_t n10 = ((int64_t)v[2]);
  int64_t n11 = ((int64_t)v[4]);
  int64_t n12 = (((int64_t)n10) - ((int64_t)n11));
  int64_t n13 = (((int64_t)n9) * ((int64_t)n12));
  int64_t n14 = (((int64_t)n6) - ((int64_t)n13));
  return (((int)(((int64_t)n14) > ((int64_t)0))) - ((int)(((int64_t)n14) < ((int64_t)0))));
}

static int lb1_orient(const int64_t *v) {
  int64_t n0 = ((int64_t)v[2]);
  int64_t n1 = (-((int64_t)n0));
  int64_t n2 = ((int64_t)v[4]);
  int64_t n3 = (((int64_t)n1) + ((int64_t)n2));
  return (((int)(((int64_t)n3) > ((int64_t)0))) - ((int)(((int64_t)n3) < ((int64_t)0))));
}

static int lb2_orient(const int64_t *v) {
  int64_t n0 = ((int64_t)v[3]);
  int64_t n1 = ((int64_t)v[5]);
  int64_t n2 = (-((int64_t)n1));
  int64_t n3 = (((int64_t)n0) + ((int64_t)n2));
  return (((int)(((int64_t)n3) > ((int64_t)0))) - ((int)(((int64_t)n3) < ((int64_t)0))));
}

static int lb3_orient(const int64_t *v) {
  int64_t n0 = ((int64_t)v[0]);
  int64_t n1 = ((int64_t)v[4]);
  int64_t n2 = (-((int64_t)n1));
  int64_t n3 = (((int64_t)n0) + ((int64_t)n2));
  return (((int)(((int64_t)n3) > ((int64_t)0))) - ((int)(((int64_t)n3) < ((int64_t)0))));
}

static int lb4_orient(const int64_t *v) {
  if (((int)0)) {
    return ((int)v[0]);
  }
  int64_t n0 = ((int64_t)((int64_t)1));
  return (((int)(((int64_t)n0) > ((int64_t)0))) - ((int)(((int64_t)n0) < ((int64_t)0))));
}

static int lb5_orient(const int64_t *v) {
  int64_t n0 = ((int64_t)v[0]);
  int64_t n1 = (-((int64_t)n0));
  int64_t n2 = ((int64_t)v[2]);
  int64_t n3 = (((int64_t)n1) + ((int64_t)n2));
  return (((int)(((int64_t)n3) > ((int64_t)0))) - ((int)(((int64_t)n3) < ((int64_t)0))));
}

static int lb6_orient(const int64_t *v) {
  if (((int)0)) {
    return ((int)v[0]);
  }
  int64_t n0 = ((int64_t)(-((int64_t)1)));
  return (((int)(((int64_t)n0) > ((int64_t)0))) - ((int)(((int64_t)n0) < ((int64_t)0))));
}

static int lb7_orient(const int64_t *v) {
  int64_t n0 = ((int64_t)v[1]);
  int64_t n1 = (-((int64_t)n0));
  int64_t n2 = ((int64_t)v[5]);
  int64_t n3 = (((int64_t)n1) + ((int64_t)n2));
  return (((int)(((int64_t)n3) > ((int64_t)0))) - ((int)(((int64_t)n3) < ((int64_t)0))));
}

static int lb8_orient(const int64_t *v) {
  if (((int)0)) {
    return ((int)v[0]);
  }
  int64_t n0 = ((int64_t)(-((int64_t)1)));
  return (((int)(((int64_t)n0) > ((int64_t)0))) - ((int)(((int64_t)n0) < ((int64_t)0))));
}

static int lb9_orient(const int64_t *v) {
  if (((int)0)) {
    return ((int)v[0]);
  }
  int64_t n0 = ((int64_t)((int64_t)1));
  return (((int)(((int64_t)n0) > ((int64_t)0))) - ((int)(((int64_t)n0) < ((int64_t)0))));
}

static int lb10_orient(const int64_t *v) {
  int64_t n0 = ((int64_t)v[1]);
  int64_t n1 = ((int64_t)v[3]);
  int64_t n2 = (-((int64_t)n1));
  int64_t n3 = (((int64_t)n0) + ((int64_t)n2));
  return (((int)(((int64_t)n3) > ((int64_t)0))) - ((int)(((int64_t)n3) < ((int64_t)0))));
}

static int lb11_orient(const int64_t *v) {
  if (((int)0)) {
    return ((int)v[0]);
  }
  int64_t n0 = ((int64_t)((int64_t)1));
  return (((int)(((int64_t)n0) > ((int64_t)0))) - ((int)(((int64_t)n0) < ((int64_t)0))));
}

static int lb12_orient(const int64_t *v) {
  if (((int)0)) {
    return ((int)v[0]);
  }
  int64_t n0 = ((int64_t)(-((int64_t)1)));
  return (((int)(((int64_t)n0) > ((int64_t)0))) - ((int)(((int64_t)n0) < ((int64_t)0))));
}

int ln_orient(const int64_t *x, const int64_t *v) {
  {
    int answer = ((int)lf_orient(v));
    if ((((int)answer) != ((int)0))) {
      return ((int)answer);
    }
  }
  {
    int answer = ((int)lb0_orient(v));
    if ((((int)answer) != ((int)0))) {
      return ((int)answer);
    }
  }
  if ((((int64_t)x[0]) < ((int64_t)x[1]))) {
    if ((((int64_t)x[0]) < ((int64_t)x[2]))) {
      {
        int answer = ((int)lb1_orient(v));
        if ((((int)answer) != ((int)0))) {
          return ((int)answer);
        }
      }
      {
        int answer = ((int)lb2_orient(v));
        if ((((int)answer) != ((int)0))) {
          return ((int)answer);
        }
      }
      if ((((int64_t)x[1]) < ((int64_t)x[2]))) {
        {
          int answer = ((int)lb3_orient(v));
          if ((((int)answer) != ((int)0))) {
            return ((int)answer);
          }
        }
        {
          int answer = ((int)lb4_orient(v));
          if ((((int)answer) != ((int)0))) {
            return ((int)answer);
          }
        }
        return ((int)0);
      }
      {
        int answer = ((int)lb5_orient(v));
        if ((((int)answer) != ((int)0))) {
          return ((int)answer);
        }
      }
      {
        int answer = ((int)lb6_orient(v));
        if ((((int)answer) != ((int)0))) {
          return ((int)answer);
        }
      }
      return ((int)0);
    }
  }
  if ((((int64_t)x[1]) < ((int64_t)x[2]))) {
    {
      int answer = ((int)lb3_orient(v));
      if ((((int)answer) != ((int)0))) {
        return ((int)answer);
      }
    }
    {
      int answer = ((int)lb7_orient(v));
      if ((((int)answer) != ((int)0))) {
        return ((int)answer);
      }
    }
    if ((((int64_t)x[0]) < ((int64_t)x[2]))) {
      {
        int answer = ((int)lb1_orient(v));
        if ((((int)answer) != ((int)0))) {
          return ((int)answer);
        }
      }
      {
        int answer = ((int)lb8_orient(v));
        if ((((int)answer) != ((int)0))) {
          return ((int)answer);
        }
      }
      return ((int)0);
    }
    {
      int answer = ((int)lb5_orient(v));
      if ((((int)answer) != ((int)0))) {
        return ((int)answer);
      }
    }
    {
      int answer = ((int)lb9_orient(v));
      if ((((int)answer) != ((int)0))) {
        return ((int)answer);
      }
    }
    return ((int)0);
  }
  {
    int answer = ((int)lb5_orient(v));
    if ((((int)answer) != ((int)0))) {
      return ((int)answer);
    }
  }
  {
    int answer = ((int)lb10_orient(v));
    if ((((int)answer) != ((int)0))) {
      return ((int)answer);
    }
  }
  if ((((int64_t)x[0]) < ((int64_t)x[1]))) {
    {
      int answer = ((int)lb1_orient(v));
      if ((((int)answer) != ((int)0))) {
        return ((int)answer);
      }
    }
    {
      int answer = ((int)lb11_orient(v));
      if ((((int)answer) != ((int)0))) {
        return ((int)answer);
      }
    }
    return ((int)0);
  }
  {
    int answer = ((int)lb3_orient(v));
    if ((((int)answer) != ((int)0))) {
      return ((int)answer);
    }
  }
  {
    int answer = ((int)lb12_orient(v));
    if ((((int)answer) != ((int)0))) {
      return ((int)answer);
    }
  }
  return ((int)0);
}
