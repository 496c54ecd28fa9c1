C     Heat in a rod, in thousandths of a degree. The rod is cut into
C     parts, a process for each, which sends its outermost cells to its
C     neighbours.
      PROGRAM HEAT
      PARAMETER (NPART = 4, M = 4)
      PROCESSORS(NPART)
      INPORT (INTEGER) FROML(NPART), FROMR(NPART)
      OUTPORT (INTEGER) TOL(NPART), TOR(NPART)
      INPORT (INTEGER CELLS(M)) RESULT(NPART)
      OUTPORT (INTEGER CELLS(M)) TELL(NPART)
      INTEGER ROD(M)
      DO I = 1, NPART - 1
        CHANNEL(IN=FROML(I + 1), OUT=TOR(I))
        CHANNEL(IN=FROMR(I), OUT=TOL(I + 1))
      ENDDO
      DO I = 1, NPART
        CHANNEL(IN=RESULT(I), OUT=TELL(I))
      ENDDO
      PROCESSDO I = 1, NPART
        PROCESSCALL PART(I, FROML(I), FROMR(I), TOL(I), TOR(I),
     +    TELL(I)) LOCATION(I)
      ENDPROCESSDO
      DO I = 1, NPART
        RECEIVE(RESULT(I)) ROD
        PRINT *, 'part', I, ROD
      ENDDO
      END

      PROCESS PART(ME, FROML, FROMR, TOL, TOR, TELL)
      PARAMETER (NPART = 4, M = 4, NSTEP = 20)
      INPORT (INTEGER) FROML, FROMR
      OUTPORT (INTEGER) TOL, TOR
      OUTPORT (INTEGER CELLS(M)) TELL
      INTENT(IN) ME, FROML, FROMR, TOL, TOR, TELL
      INTEGER NOW(0:M + 1), LATER(M)
      IF (ME .EQ. 1) NOW(0) = 100000
      DO K = 1, NSTEP
        IF (ME .GT. 1) SEND(TOL) NOW(1)
        IF (ME .LT. NPART) SEND(TOR) NOW(M)
        IF (ME .GT. 1) RECEIVE(FROML) NOW(0)
        IF (ME .LT. NPART) RECEIVE(FROMR) NOW(M + 1)
        DO I = 1, M
          LATER(I) = NOW(I) + (NOW(I - 1) - 2*NOW(I) + NOW(I + 1))/4
        ENDDO
        DO I = 1, M
          NOW(I) = LATER(I)
        ENDDO
      ENDDO
      SEND(TELL) LATER
      END
