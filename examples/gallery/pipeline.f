C     A pipeline that sorts: each stage keeps the least number that has
C     come by and hands on the others.
      PROGRAM PIPE
      PARAMETER (N = 9)
      INTEGER A(N), SORTED(N)
      INPORT (INTEGER) P(0:N)
      OUTPORT (INTEGER) Q(0:N)
      K = 17
      DO I = 1, N
        K = MOD(K*31 + 7, 101)
        A(I) = K
      ENDDO
      PRINT *, 'unsorted', A
      DO I = 0, N
        CHANNEL(IN=P(I), OUT=Q(I))
      ENDDO
      PROCESSES
        PROCESSCALL SOURCE(A, Q(0))
        PROCESSDO I = 1, N
          PROCESSCALL STAGE(P(I - 1), Q(I), SORTED(I))
        ENDPROCESSDO
      ENDPROCESSES
      PRINT *, 'sorted', SORTED
      END

      PROCESS SOURCE(A, Q)
      PARAMETER (N = 9)
      INTEGER A(N)
      OUTPORT (INTEGER) Q
      INTENT(IN) A, Q
      DO I = 1, N
        SEND(Q) A(I)
      ENDDO
      END

      PROCESS STAGE(P, Q, LEAST)
      INPORT (INTEGER) P
      OUTPORT (INTEGER) Q
      INTENT(IN) P, Q
      RECEIVE(P) LEAST
   10 RECEIVE(P, END=20) K
      IF (K .LT. LEAST) THEN
        SEND(Q) LEAST
        LEAST = K
      ELSE
        SEND(Q) K
      ENDIF
      GOTO 10
   20 END
