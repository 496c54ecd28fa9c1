C     A result outside 64 bits is a fault of the process, at its line.
      PROGRAM BIG
      N = 999999999999999999*9
      PRINT *, N
      N = N*2
      PRINT *, N
      END
