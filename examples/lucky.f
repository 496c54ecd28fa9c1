C     The lucky numbers up to 60. The even numbers are crossed out. The
C     next number that is left is 3, so every third of those that are
C     left is crossed out; then every seventh, since 7 is the next; and
C     so on.
      PROGRAM LUCKY
      PARAMETER (N = 60)
      LOGICAL OUT(N)
      INTEGER I, J, LEFT
      DO 10 J = 2, N, 2
10    OUT(J) = .TRUE.
      PRINT *, 1
      DO 30 I = 3, N
        IF (OUT(I)) GOTO 30
        PRINT *, I
        LEFT = 0
        DO 20 J = 1, N
          IF (OUT(J)) GOTO 20
          LEFT = LEFT + 1
          OUT(J) = MOD(LEFT, I) .EQ. 0
20      CONTINUE
30    CONTINUE
      END
