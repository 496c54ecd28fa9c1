C     Quicksort. What is still to be sorted waits on a stack in an
C     array.
      PROGRAM SORTS
      PARAMETER (N = 12)
      INTEGER A(N), I
      DO I = 1, N
        A(I) = MOD(I*I*7 + 3*I, 41) - 20
      ENDDO
      PRINT *, A
      CALL SORT(A)
      PRINT *, A
      END
      SUBROUTINE SORT(A)
      PARAMETER (N = 12)
      INTEGER A(N), STACK(2,N), TOP, LOW, HIGH, I, J, P
      TOP = 1
      STACK(1,1) = 1
      STACK(2,1) = N
      DO WHILE (TOP .GT. 0)
        LOW = STACK(1,TOP)
        HIGH = STACK(2,TOP)
        TOP = TOP - 1
        IF (LOW .LT. HIGH) THEN
          P = A((LOW + HIGH)/2)
          I = LOW
          J = HIGH
          DO WHILE (I .LE. J)
10          IF (A(I) .LT. P) THEN
              I = I + 1
              GOTO 10
            ENDIF
20          IF (A(J) .GT. P) THEN
              J = J - 1
              GOTO 20
            ENDIF
            IF (I .LE. J) THEN
              CALL SWAP(A(I), A(J))
              I = I + 1
              J = J - 1
            ENDIF
          ENDDO
          STACK(1,TOP+1) = LOW
          STACK(2,TOP+1) = J
          STACK(1,TOP+2) = I
          STACK(2,TOP+2) = HIGH
          TOP = TOP + 2
        ENDIF
      ENDDO
      END
      SUBROUTINE SWAP(X, Y)
      INTEGER X, Y, T
      T = X
      X = Y
      Y = T
      END
