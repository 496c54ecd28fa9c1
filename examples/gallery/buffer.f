C     A buffer with a bound. A channel has none, so the reader grants
C     the writer K messages at first, and one more for each that it has
C     taken.
      PROGRAM BOUND
      PARAMETER (K = 3, N = 10)
      INPORT (INTEGER) GOODS
      OUTPORT (INTEGER) GOODSO
      INPORT () GRANT
      OUTPORT () GRANTO
      CHANNEL(IN=GOODS, OUT=GOODSO)
      CHANNEL(IN=GRANT, OUT=GRANTO)
      PROCESSES
        PROCESSCALL WRITER(N, GOODSO, GRANT)
        PROCESSCALL READER(K, GOODS, GRANTO)
      ENDPROCESSES
      END

      PROCESS WRITER(N, GOODS, GRANT)
      OUTPORT (INTEGER) GOODS
      INPORT () GRANT
      INTENT(IN) N, GOODS, GRANT
      DO I = 1, N
        RECEIVE(GRANT)
        SEND(GOODS) I
      ENDDO
      END

      PROCESS READER(K, GOODS, GRANT)
      INPORT (INTEGER) GOODS
      OUTPORT () GRANT
      INTENT(IN) K, GOODS, GRANT
      DO I = 1, K
        SEND(GRANT)
      ENDDO
   10 RECEIVE(GOODS, END=20) J
      PRINT *, 'took', J
      SEND(GRANT)
      GOTO 10
   20 PRINT *, 'done'
      END
