C     A search that stops early: a process looks in the left half of its
C     range, and starts another for the right half only if nothing was
C     there.
      PROGRAM SEARCH
      PROCESSES
        PROCESSCALL LOOK(1, 64, 37, MARK, NODES)
      ENDPROCESSES
      PRINT *, 'found at', MARK, 'nodes visited', NODES
      END

      PROCESS LOOK(LOW, IHIGH, KEY, MARK, NODES)
      INTENT(IN) LOW, IHIGH, KEY
      MARK = 0
      NODES = 1
      IF (LOW .EQ. IHIGH) THEN
        IF (MOD(LOW*LOW, 101) .EQ. MOD(KEY*KEY, 101)) MARK = LOW
        RETURN
      ENDIF
      MIDDLE = (LOW + IHIGH)/2
      PROCESSES
        PROCESSCALL LOOK(LOW, MIDDLE, KEY, MARK, MORE)
      ENDPROCESSES
      NODES = NODES + MORE
      IF (MARK .NE. 0) RETURN
      PROCESSES
        PROCESSCALL LOOK(MIDDLE + 1, IHIGH, KEY, MARK, MORE)
      ENDPROCESSES
      NODES = NODES + MORE
      END
