C     The alternating bit protocol. Both lines between sender and reader
C     lose packets. The sender repeats a packet until its bit comes
C     back, and the reader takes a packet only if its bit is the next.
      PROGRAM PROTOCOL
      INPORT (INTEGER BIT, INTEGER NUMBER) THERE, THERE2, BACK, BACK2
      OUTPORT (INTEGER BIT, INTEGER NUMBER) GO, GO2, ACK, ACK2
      CHANNEL(IN=THERE, OUT=GO)
      CHANNEL(IN=THERE2, OUT=GO2)
      CHANNEL(IN=BACK, OUT=ACK)
      CHANNEL(IN=BACK2, OUT=ACK2)
      PROCESSES
        PROCESSCALL SENDER(GO, BACK2)
        PROCESSCALL LINE(3, THERE, GO2)
        PROCESSCALL READER(THERE2, ACK)
        PROCESSCALL LINE(4, BACK, ACK2)
      ENDPROCESSES
      END

      PROCESS SENDER(GO, BACK)
      PARAMETER (NUMBERS = 6, NPOLL = 50)
      OUTPORT (INTEGER BIT, INTEGER NUMBER) GO
      INPORT (INTEGER BIT, INTEGER NUMBER) BACK
      INTEGER BIT
      LOGICAL NONE
      INTENT(IN) GO, BACK
      BIT = 0
      DO I = 1, NUMBERS
   10   SEND(GO) BIT, 100*I
C       Ask for the answer a while, then send the packet once more.
        DO 20 J = 1, NPOLL
          PROBE(BACK, EMPTY=NONE)
          IF (NONE) GOTO 20
          RECEIVE(BACK) K, L
          IF (K .EQ. BIT) GOTO 30
   20   CONTINUE
        GOTO 10
   30   BIT = 1 - BIT
      ENDDO
      END

C     A line that loses every packet whose number is a multiple of NTH.
      PROCESS LINE(NTH, FROM, TO)
      INPORT (INTEGER BIT, INTEGER NUMBER) FROM
      OUTPORT (INTEGER BIT, INTEGER NUMBER) TO
      INTEGER BIT
      INTENT(IN) NTH, FROM, TO
      NPACK = 0
   10 RECEIVE(FROM, END=20) BIT, NUMBER
      NPACK = NPACK + 1
      IF (MOD(NPACK, NTH) .NE. 0) SEND(TO) BIT, NUMBER
      GOTO 10
   20 END

      PROCESS READER(THERE, ACK)
      INPORT (INTEGER BIT, INTEGER NUMBER) THERE
      OUTPORT (INTEGER BIT, INTEGER NUMBER) ACK
      INTEGER BIT
      INTENT(IN) THERE, ACK
      NEXT = 0
   10 RECEIVE(THERE, END=20) BIT, NUMBER
      IF (BIT .EQ. NEXT) THEN
        PRINT *, 'took', NUMBER
        NEXT = 1 - NEXT
      ENDIF
      SEND(ACK) BIT, NUMBER
      GOTO 10
   20 PRINT *, 'end'
      END
