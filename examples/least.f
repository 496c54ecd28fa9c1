      PROGRAM LEAST
      END
