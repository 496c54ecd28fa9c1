C     Two processes that each wait for the other's number before they send
C     their own: nobody ever sends, whatever the schedule.
      PROGRAM DEAD
      INPORT (INTEGER) A, B
      OUTPORT (INTEGER) C, D
      CHANNEL(IN=A, OUT=C)
      CHANNEL(IN=B, OUT=D)
      PROCESSES
        PROCESSCALL SWAP(A, D, 1)
        PROCESSCALL SWAP(B, C, 2)
      ENDPROCESSES
      PRINT *, 'both have swapped'
      END

      PROCESS SWAP(P, Q, N)
      INPORT (INTEGER) P
      OUTPORT (INTEGER) Q
      RECEIVE(P) I
      SEND(Q) N
      PRINT *, I
      END
