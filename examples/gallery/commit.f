C     Two-phase commit. In each round all are to give the same amount,
C     or none is. First the coordinator asks all whether they have it;
C     then it lets all know what to do.
      PROGRAM COMMIT
      PARAMETER (N = 4)
      INPORT (INTEGER) ASKED(N)
      OUTPORT (INTEGER) ASK(N)
      INPORT (LOGICAL) VOTE(N), ORDER(N)
      OUTPORT (LOGICAL) CAST(N), TELL(N)
      DO I = 1, N
        CHANNEL(IN=ASKED(I), OUT=ASK(I))
        CHANNEL(IN=VOTE(I), OUT=CAST(I))
        CHANNEL(IN=ORDER(I), OUT=TELL(I))
      ENDDO
      PROCESSES
        PROCESSCALL COORDINATOR(ASK, VOTE, TELL)
        PROCESSDO I = 1, N
          PROCESSCALL PARTNER(I, ASKED(I), CAST(I), ORDER(I))
        ENDPROCESSDO
      ENDPROCESSES
      END

      PROCESS COORDINATOR(ASK, VOTE, TELL)
      PARAMETER (N = 4, NROUND = 4)
      OUTPORT (INTEGER) ASK(N)
      INPORT (LOGICAL) VOTE(N)
      OUTPORT (LOGICAL) TELL(N)
      INTEGER AMOUNT
      LOGICAL HASIT, ALL
      INTENT(IN) ASK, VOTE, TELL
      DO K = 1, NROUND
        AMOUNT = 6 - K
        DO I = 1, N
          SEND(ASK(I)) AMOUNT
        ENDDO
        ALL = .TRUE.
        DO I = 1, N
          RECEIVE(VOTE(I)) HASIT
          ALL = ALL .AND. HASIT
        ENDDO
        DO I = 1, N
          SEND(TELL(I)) ALL
        ENDDO
        PRINT *, 'round', K, 'amount', AMOUNT, 'commit', ALL
      ENDDO
      END

      PROCESS PARTNER(ME, ASKED, CAST, ORDER)
      INPORT (INTEGER) ASKED
      OUTPORT (LOGICAL) CAST
      INPORT (LOGICAL) ORDER
      INTEGER AMOUNT, STOCK
      LOGICAL ALL
      INTENT(IN) ME, ASKED, CAST, ORDER
      STOCK = 6 + ME
   10 RECEIVE(ASKED, END=20) AMOUNT
      SEND(CAST) AMOUNT .LE. STOCK
      RECEIVE(ORDER) ALL
      IF (ALL) STOCK = STOCK - AMOUNT
      GOTO 10
   20 PRINT *, 'partner', ME, 'gave', 6 + ME - STOCK, 'has', STOCK
      END
