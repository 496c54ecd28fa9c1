C     Two processes that can't deadlock: a channel from one to the other,
C     whose ports they keep.
      PROGRAM SUM
      INPORT (INTEGER) PI
      OUTPORT (INTEGER) PO
      CHANNEL(IN=PI, OUT=PO)
      PROCESSES
        PROCESSCALL PRODUC(10, PO)
        PROCESSCALL CONSUM(PI, K)
      ENDPROCESSES
      PRINT *, 'sum', K
      END

      PROCESS PRODUC(N, P)
      INTENT(IN) N, P
      OUTPORT (INTEGER) P
      SEND(P) N
      SEND(P) N*N
      END

      PROCESS CONSUM(P, K)
      INTENT(IN) P
      INPORT (INTEGER) P
      RECEIVE(P) I
      RECEIVE(P) J
      K = I + J
      END
