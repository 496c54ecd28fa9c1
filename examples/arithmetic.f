C     Whole numbers: signs, sums, differences, products, parentheses.
      PROGRAM SUMS
      I = 6
      J = -(I + 1)*2
      PRINT *, I, J, I*J - 1
      K = I - J - 1
      print *, k, (k - 1)*(k + 1), +k
      PRINT *
      END
