C     The Hamming numbers: 1, and with each number its double, its
C     triple and five times as much. A network makes them in order, each
C     once. MERGE sends what it finds to where the next ones are made.
      PROGRAM HAMMING
      PARAMETER (M = 3, NUMBERS = 20)
      INPORT (INTEGER) NEW(M), MADE(M)
      OUTPORT (INTEGER) FEED(M), GIVE(M)
      INTEGER FACTOR(M), LIST(NUMBERS)
      FACTOR(1) = 2
      FACTOR(2) = 3
      FACTOR(3) = 5
      DO I = 1, M
        CHANNEL(IN=NEW(I), OUT=FEED(I))
        CHANNEL(IN=MADE(I), OUT=GIVE(I))
      ENDDO
      PROCESSES
        PROCESSCALL MERGE(MADE, FEED, LIST)
        PROCESSDO I = 1, M
          PROCESSCALL TIMES(FACTOR(I), NEW(I), GIVE(I))
        ENDPROCESSDO
      ENDPROCESSES
      PRINT *, LIST
      END

      PROCESS TIMES(K, NEW, GIVE)
      INPORT (INTEGER) NEW
      OUTPORT (INTEGER) GIVE
      INTENT(IN) K, NEW, GIVE
   10 RECEIVE(NEW, END=20) I
      SEND(GIVE) K*I
      GOTO 10
   20 END

C     Sends each number to all that multiply it. The next one is the
C     least of those that have come back. HEAD(I) is the first of the
C     I-th stream, or 0 if it has to be received yet.
      PROCESS MERGE(MADE, FEED, LIST)
      PARAMETER (M = 3, NUMBERS = 20)
      INPORT (INTEGER) MADE(M)
      OUTPORT (INTEGER) FEED(M)
      INTEGER HEAD(M), LIST(NUMBERS)
      INTENT(IN) MADE, FEED
      K = 1
      DO J = 1, NUMBERS
        LIST(J) = K
        DO I = 1, M
          SEND(FEED(I)) K
          IF (HEAD(I) .EQ. 0) RECEIVE(MADE(I)) HEAD(I)
        ENDDO
        K = MIN(HEAD(1), HEAD(2), HEAD(3))
        DO I = 1, M
          IF (HEAD(I) .EQ. K) HEAD(I) = 0
        ENDDO
      ENDDO
      END
