      * Does with an indexed file of GnuCOBOL what the lines of standard
      * input say, as sqlite.c has them; a file is never synced. It ends
      * with status 1 where a record is missing, or is there already.
       IDENTIFICATION DIVISION.
       PROGRAM-ID. FILES.
       ENVIRONMENT DIVISION.
       INPUT-OUTPUT SECTION.
       FILE-CONTROL.
           SELECT WORK ASSIGN TO KEYBOARD ORGANIZATION LINE SEQUENTIAL.
           SELECT FIRST-FILE ASSIGN TO "first.dat"
               ORGANIZATION INDEXED ACCESS RANDOM
               RECORD KEY FIRST-KEY STATUS FIRST-STATUS.
       DATA DIVISION.
       FILE SECTION.
       FD WORK.
       01 WORK-LINE.
          05 WORK-VERB PIC X.
          05 FILLER PIC X.
          05 WORK-KEY PIC X(8).
       FD FIRST-FILE.
       01 FIRST-RECORD.
          05 FIRST-KEY PIC X(8).
          05 FIRST-REST PIC X(72).
       WORKING-STORAGE SECTION.
       01 FIRST-STATUS PIC XX.
       01 AT-END PIC X VALUE "N".
       PROCEDURE DIVISION.
           OPEN I-O FIRST-FILE.
           IF FIRST-STATUS = "35"
               OPEN OUTPUT FIRST-FILE
               CLOSE FIRST-FILE
               OPEN I-O FIRST-FILE
           END-IF.
           OPEN INPUT WORK.
           PERFORM UNTIL AT-END = "Y"
               READ WORK AT END MOVE "Y" TO AT-END
                   NOT AT END PERFORM DO-LINE
               END-READ
           END-PERFORM.
           CLOSE FIRST-FILE.
           STOP RUN.
       DO-LINE.
           IF WORK-VERB = "C" EXIT PARAGRAPH END-IF.
           MOVE WORK-KEY TO FIRST-KEY.
           IF WORK-VERB = "P"
               MOVE ALL "x" TO FIRST-REST
               WRITE FIRST-RECORD
           ELSE
               READ FIRST-FILE
           END-IF.
           IF FIRST-STATUS NOT = "00" STOP RUN RETURNING 1 END-IF.
           IF WORK-VERB = "U"
               MOVE ALL "y" TO FIRST-REST
               REWRITE FIRST-RECORD
           END-IF.
           IF WORK-VERB = "E" DELETE FIRST-FILE END-IF.
           IF FIRST-STATUS NOT = "00" STOP RUN RETURNING 1 END-IF.
