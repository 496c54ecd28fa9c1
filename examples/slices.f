C     A farm whose messages are as long as what they hold: main cuts an
C     array into pieces of 1, 2, 3 .. elements for two workers by turns.
C     Each sends back its squares, and main puts them together again.
      PROGRAM SLICES
      PARAMETER (M = 10)
      INPORT (INTEGER N, INTEGER X(N)) BACK(2)
      OUTPORT (INTEGER N, INTEGER X(N)) WORK(2), R(2)
      INPORT (INTEGER N, INTEGER X(N)) W(2)
      DO K = 1, 2
        CHANNEL(IN=W(K), OUT=WORK(K))
        CHANNEL(IN=BACK(K), OUT=R(K))
      ENDDO
      PROCESSES
        PROCESSCALL CUT(WORK, BACK)
        PROCESSDO K = 1, 2
          PROCESSCALL SQUARE(W(K), R(K))
        ENDPROCESSDO
      ENDPROCESSES
      END

      PROCESS CUT(WORK, BACK)
      PARAMETER (M = 10)
      OUTPORT (INTEGER N, INTEGER X(N)) WORK(2)
      INPORT (INTEGER N, INTEGER X(N)) BACK(2)
      INTEGER PIECE(M), NEXT, LENGTH, SUM
      NEXT = 1
      LENGTH = 1
      K = 1
C     LENGTH numbers from NEXT on; the last piece has what is left.
      DO WHILE (NEXT .LE. M)
        LENGTH = MIN(LENGTH, M - NEXT + 1)
        DO I = 1, LENGTH
          PIECE(I) = NEXT + I - 1
        ENDDO
        SEND(WORK(K)) LENGTH, PIECE
        RECEIVE(BACK(K)) N, PIECE
        SUM = 0
        DO I = 1, N
          SUM = SUM + PIECE(I)
        ENDDO
        PRINT *, 'worker', K, 'squared', N, 'numbers, in all', SUM
        NEXT = NEXT + LENGTH
        LENGTH = LENGTH + 1
        K = 3 - K
      ENDDO
      ENDCHANNEL(WORK(1))
      ENDCHANNEL(WORK(2))
      END

      PROCESS SQUARE(W, R)
      PARAMETER (M = 10)
      INPORT (INTEGER N, INTEGER X(N)) W
      OUTPORT (INTEGER N, INTEGER X(N)) R
      INTEGER PIECE(M)
   10 RECEIVE(W, END=20) N, PIECE
      DO I = 1, N
        PIECE(I) = PIECE(I)**2
      ENDDO
      SEND(R) N, PIECE
      GOTO 10
   20 END
