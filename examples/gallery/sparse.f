C     A sparse matrix times a vector. A row is sent as the columns and
C     the values of those of its entries that aren't 0, however many
C     these are: one field of the message gives the size of two arrays.
      PROGRAM SPARSE
      PARAMETER (K = 2)
      INPORT (INTEGER I, INTEGER M, INTEGER C(M), INTEGER V(M)) ROW(K)
      OUTPORT (INTEGER I, INTEGER M, INTEGER C(M), INTEGER V(M)) OUT(K)
      INPORT (INTEGER I, INTEGER S) SUM(K)
      OUTPORT (INTEGER I, INTEGER S) BACK(K)
      DO L = 1, K
        CHANNEL(IN=ROW(L), OUT=OUT(L))
        CHANNEL(IN=SUM(L), OUT=BACK(L))
      ENDDO
      PROCESSES
        PROCESSCALL DEAL(OUT, SUM)
        PROCESSDO L = 1, K
          PROCESSCALL TIMES(ROW(L), BACK(L))
        ENDPROCESSDO
      ENDPROCESSES
      END

C     Row I has entries in the columns that I divides, and nowhere else.
      PROCESS DEAL(OUT, SUM)
      PARAMETER (K = 2, N = 8)
      OUTPORT (INTEGER I, INTEGER M, INTEGER C(M), INTEGER V(M)) OUT(K)
      INPORT (INTEGER I, INTEGER S) SUM(K)
      INTEGER C(N), V(N), Y(N), S
      INTENT(IN) OUT, SUM
      DO I = 1, N
        M = 0
        DO J = I, N, I
          M = M + 1
          C(M) = J
          V(M) = J/I
        ENDDO
        SEND(OUT(MOD(I, K) + 1)) I, M, C, V
      ENDDO
      DO L = 1, K
        ENDCHANNEL(OUT(L))
      ENDDO
      DO I = 1, N
        RECEIVE(SUM(MOD(I, K) + 1)) J, S
        Y(J) = S
      ENDDO
      PRINT *, Y
      END

      PROCESS TIMES(ROW, BACK)
      PARAMETER (N = 8)
      INPORT (INTEGER I, INTEGER M, INTEGER C(M), INTEGER V(M)) ROW
      OUTPORT (INTEGER I, INTEGER S) BACK
      INTEGER C(N), V(N), X(N), S
      INTENT(IN) ROW, BACK
      DO J = 1, N
        X(J) = J
      ENDDO
      NENTRY = 0
   10 RECEIVE(ROW, END=20) I, M, C, V
      S = 0
      DO J = 1, M
        S = S + V(J)*X(C(J))
      ENDDO
      NENTRY = NENTRY + M
      SEND(BACK) I, S
      GOTO 10
   20 PRINT *, NENTRY, 'entries'
      END
