C     A tree that sums: a process with more than one number starts two
C     of its like, one for each half, and a third that adds what they
C     send.
      PROGRAM TREE
      PARAMETER (N = 13)
      INPORT (INTEGER) SUMS
      OUTPORT (INTEGER) UP
      CHANNEL(IN=SUMS, OUT=UP)
      PROCESSES
        PROCESSCALL NODE(1, N, UP)
        PROCESSCALL ROOT(SUMS, K)
      ENDPROCESSES
      PRINT *, 'sum of squares', K, 'expected', N*(N + 1)*(2*N + 1)/6
      END

      PROCESS ROOT(SUMS, K)
      INPORT (INTEGER) SUMS
      RECEIVE(SUMS) K
      END

      PROCESS NODE(LOW, IHIGH, UP)
      OUTPORT (INTEGER) UP, LEFT, RIGHT
      INPORT (INTEGER) LEFTS, RIGHTS
      INTENT(IN) LOW, IHIGH, UP
      IF (LOW .EQ. IHIGH) THEN
        SEND(UP) LOW*LOW
      ELSE
        MIDDLE = (LOW + IHIGH)/2
        CHANNEL(IN=LEFTS, OUT=LEFT)
        CHANNEL(IN=RIGHTS, OUT=RIGHT)
        PROCESSES
          PROCESSCALL NODE(LOW, MIDDLE, LEFT)
          PROCESSCALL NODE(MIDDLE + 1, IHIGH, RIGHT)
          PROCESSCALL ADDER(LEFTS, RIGHTS, UP)
        ENDPROCESSES
      ENDIF
      END

      PROCESS ADDER(LEFTS, RIGHTS, UP)
      INPORT (INTEGER) LEFTS, RIGHTS
      OUTPORT (INTEGER) UP
      INTENT(IN) LEFTS, RIGHTS, UP
      RECEIVE(LEFTS) I
      RECEIVE(RIGHTS) J
      SEND(UP) I + J
      PRINT *, 'add', I, J
      END
