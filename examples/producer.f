C     A producer sends three numbers to a consumer, which prints them and
C     gives their sum back to main in the variable K.
      PROGRAM SUM
      INPORT (INTEGER) PI
      OUTPORT (INTEGER) PO
      CHANNEL(IN=PI, OUT=PO)
      PROCESSES
        PROCESSCALL PRODUCE(10, PO)
        PROCESSCALL CONSUME(PI, K)
      ENDPROCESSES
      PRINT *, 'sum', K
      END

      PROCESS PRODUCE(N, P)
      OUTPORT (INTEGER) P
      SEND(P) N
      SEND(P) N*N
      SEND(P) -N
      ENDCHANNEL(P)
      END

      PROCESS CONSUME(P, K)
      INPORT (INTEGER) P
      RECEIVE(P) I
      RECEIVE(P) J
      RECEIVE(P) L
      PRINT *, I, J, L
      K = I + J + L
      END
