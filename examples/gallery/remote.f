C     Remote procedures. A server has three of them; a client calls one
C     by a SUBROUTINE, which sends the call with a port for the answer.
C     The answer says whether the server knows the procedure.
      PROGRAM REMOTES
      PARAMETER (N = 3)
      INPORT (INTEGER WHAT, INTEGER I, INTEGER J,
     +  OUTPORT (LOGICAL KNOWN, INTEGER VALUE)) CALLS
      OUTPORT (INTEGER WHAT, INTEGER I, INTEGER J,
     +  OUTPORT (LOGICAL KNOWN, INTEGER VALUE)) ASK(N)
      MERGER(IN=CALLS, OUT=ASK)
      PROCESSES
        PROCESSCALL SERVER(CALLS)
        PROCESSDO I = 1, N
          PROCESSCALL CLIENT(I, ASK(I))
        ENDPROCESSDO
      ENDPROCESSES
      END

      PROCESS SERVER(CALLS)
      PARAMETER (NSUM = 1, NGCD = 2, NPOWER = 3)
      INPORT (INTEGER WHAT, INTEGER I, INTEGER J,
     +  OUTPORT (LOGICAL KNOWN, INTEGER VALUE)) CALLS
      OUTPORT (LOGICAL KNOWN, INTEGER VALUE) ANSWER
      INTEGER WHAT, GCD, SERVED
      INTENT(IN) CALLS
      SERVED = 0
   10 RECEIVE(CALLS, END=20) WHAT, I, J, ANSWER
      SERVED = SERVED + 1
      IF (WHAT .EQ. NSUM) THEN
        SEND(ANSWER) .TRUE., I + J
      ELSE IF (WHAT .EQ. NGCD) THEN
        SEND(ANSWER) .TRUE., GCD(I, J)
      ELSE IF (WHAT .EQ. NPOWER) THEN
        SEND(ANSWER) .TRUE., I**J
      ELSE
        SEND(ANSWER) .FALSE., 0
      ENDIF
      GOTO 10
   20 PRINT *, 'calls served', SERVED
      END

      INTEGER FUNCTION GCD(I, J)
      INTEGER REST
      GCD = I
      K = J
      DO WHILE (K .NE. 0)
        REST = MOD(GCD, K)
        GCD = K
        K = REST
      ENDDO
      END

      PROCESS CLIENT(ME, ASK)
      OUTPORT (INTEGER WHAT, INTEGER I, INTEGER J,
     +  OUTPORT (LOGICAL KNOWN, INTEGER VALUE)) ASK
      INTEGER WHAT, VALUE
      LOGICAL KNOWN
      INTENT(IN) ME, ASK
      DO WHAT = 1, 4
        CALL REMOTE(ASK, WHAT, 12*ME, 8, KNOWN, VALUE)
        IF (KNOWN) THEN
          PRINT *, 'client', ME, 'procedure', WHAT, 'gives', VALUE
        ELSE
          PRINT *, 'client', ME, 'procedure', WHAT, 'is unknown'
        ENDIF
      ENDDO
      END

C     The client's side of a call: sends it, and waits for the answer.
      SUBROUTINE REMOTE(ASK, WHAT, I, J, KNOWN, VALUE)
      OUTPORT (INTEGER WHAT, INTEGER I, INTEGER J,
     +  OUTPORT (LOGICAL KNOWN, INTEGER VALUE)) ASK
      INPORT (LOGICAL KNOWN, INTEGER VALUE) ANSWER
      OUTPORT (LOGICAL KNOWN, INTEGER VALUE) REPLY
      INTEGER WHAT, VALUE
      LOGICAL KNOWN
      INTENT(IN) WHAT, I, J
      CHANNEL(IN=ANSWER, OUT=REPLY)
      SEND(ASK) WHAT, I, J, REPLY
      RECEIVE(ANSWER) KNOWN, VALUE
      END
