C     A bank: tellers send amounts to one vault, which keeps the
C     accounts.
      PROGRAM BANK
      PARAMETER (N = 4)
      INPORT (INTEGER, INTEGER) ORDERS
      OUTPORT (INTEGER, INTEGER) ORDER(N)
      MERGER(IN=ORDERS, OUT=ORDER)
      PROCESSES
        PROCESSCALL VAULT(ORDERS)
        PROCESSDO I = 1, N
          PROCESSCALL TELLER(I, ORDER(I))
        ENDPROCESSDO
      ENDPROCESSES
      END

      PROCESS TELLER(ME, ORDER)
      OUTPORT (INTEGER, INTEGER) ORDER
      INTENT(IN) ME, ORDER
      DO I = 1, 3
        SEND(ORDER) ME, 100*ME + I
        SEND(ORDER) MOD(ME, 4) + 1, -50
      ENDDO
      END

      PROCESS VAULT(ORDERS)
      PARAMETER (N = 4)
      INPORT (INTEGER, INTEGER) ORDERS
      INTEGER BALANCE(N), SUM, STATE
      STATE = 0
      DO WHILE (STATE .EQ. 0)
        RECEIVE(ORDERS, IOSTAT=STATE) I, K
        IF (STATE .EQ. 0) THEN
          BALANCE(I) = BALANCE(I) + K
          NUMBER = NUMBER + 1
        END IF
      END DO
      DO 10 I = 1, N
        SUM = SUM + BALANCE(I)
   10 PRINT *, 'account', I, BALANCE(I)
      PRINT *, 'sum', SUM, 'after', NUMBER
      END
