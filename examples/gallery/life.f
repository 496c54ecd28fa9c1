C     The game of life on a ring of rows, each of which is a ring of
C     cells. A process has a row; in each generation it sees those
C     beside it.
      PROGRAM LIFE
      PARAMETER (N = 6, NTIMES = 4)
      INTEGER BOARD(N, N), ROW(N)
      INPORT (INTEGER CELLS(N)) START(N), ABOVE(N), BELOW(N)
      OUTPORT (INTEGER CELLS(N)) FIRST(N), DOWN(N), UP(N)
      BOARD(2, 1) = 1
      BOARD(3, 2) = 1
      BOARD(1, 3) = 1
      BOARD(2, 3) = 1
      BOARD(3, 3) = 1
      DO J = 1, N
        CHANNEL(IN=ABOVE(MOD(J, N) + 1), OUT=DOWN(J))
        CHANNEL(IN=BELOW(J), OUT=UP(MOD(J, N) + 1))
        CHANNEL(IN=START(J), OUT=FIRST(J))
        DO I = 1, N
          ROW(I) = BOARD(I, J)
        ENDDO
        SEND(FIRST(J)) ROW
      ENDDO
      PROCESSDO J = 1, N
        PROCESSCALL CELLS(NTIMES, START(J), ABOVE(J), BELOW(J), UP(J),
     +    DOWN(J))
      ENDPROCESSDO
      END

      PROCESS CELLS(NTIMES, START, ABOVE, BELOW, UP, DOWN)
      PARAMETER (N = 6)
      INPORT (INTEGER ROW(N)) START, ABOVE, BELOW
      OUTPORT (INTEGER ROW(N)) UP, DOWN
      INTENT(IN) NTIMES, START, ABOVE, BELOW, UP, DOWN
      INTEGER OVER(N), MINE(N), UNDER(N), NEXT(N), LEFT, RIGHT, SUM
      RECEIVE(START) MINE
      DO K = 1, NTIMES
        SEND(UP) MINE
        SEND(DOWN) MINE
        RECEIVE(ABOVE) OVER
        RECEIVE(BELOW) UNDER
        DO I = 1, N
          LEFT = MOD(I + N - 2, N) + 1
          RIGHT = MOD(I, N) + 1
          SUM = OVER(LEFT) + OVER(I) + OVER(RIGHT) + MINE(LEFT)
     +      + MINE(RIGHT) + UNDER(LEFT) + UNDER(I) + UNDER(RIGHT)
          NEXT(I) = 0
          IF (SUM .EQ. 3) NEXT(I) = 1
          IF (SUM .EQ. 2) NEXT(I) = MINE(I)
        ENDDO
        DO I = 1, N
          MINE(I) = NEXT(I)
        ENDDO
      ENDDO
      PRINT *, MINE
      END
