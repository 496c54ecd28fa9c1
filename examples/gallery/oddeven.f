C     Odd-even sort. Each process has one number. By turns it compares
C     it with that of its left and of its right neighbour; the left one
C     of a pair keeps the lesser number, the right one the greater.
      PROGRAM SORTS
      PARAMETER (N = 9)
      INPORT (INTEGER) FROML(N), FROMR(N)
      OUTPORT (INTEGER) TOL(N), TOR(N)
      INTEGER A(N)
      DO I = 1, N
        A(I) = MOD(7*I*I, 31)
      ENDDO
      PRINT *, 'unsorted', A
C     The first process has nobody on its left, the last one nobody on
C     its right: there the ports are NULL.
      DO I = 1, N - 1
        CHANNEL(IN=FROML(I + 1), OUT=TOR(I))
        CHANNEL(IN=FROMR(I), OUT=TOL(I + 1))
      ENDDO
      PROCESSDO I = 1, N
        PROCESSCALL CELL(I, A(I), FROML(I), FROMR(I), TOL(I), TOR(I))
      ENDPROCESSDO
      PRINT *, 'sorted', A
      END

      PROCESS CELL(ME, MINE, FROML, FROMR, TOL, TOR)
      PARAMETER (N = 9)
      INPORT (INTEGER) FROML, FROMR
      OUTPORT (INTEGER) TOL, TOR
      INTEGER OTHER
      INTENT(IN) ME, FROML, FROMR, TOL, TOR
      DO K = 1, N
        IF (MOD(ME + K, 2) .EQ. 0) THEN
          IF (ME .LT. N) THEN
            SEND(TOR) MINE
            RECEIVE(FROMR) OTHER
            MINE = MIN(MINE, OTHER)
          ENDIF
        ELSE IF (ME .GT. 1) THEN
          SEND(TOL) MINE
          RECEIVE(FROML) OTHER
          MINE = MAX(MINE, OTHER)
        ENDIF
      ENDDO
      END
