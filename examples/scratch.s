; The bezel's scratches against the threshold, to be tried on the bench: A0 leads to LIM, A1 to EDGE, A2 to FACE.
; The score is a hundred for each edge scratch and four for each face scratch. D7 is 1 if the bezel is packed, 0 if it is set aside.
ORG $1000
LIM: DC.L 4160
EDGE: DC.L 31
FACE: DC.L 260
GO: MOVE.L (A1),D1
MULS.W #100,D1
MOVE.L (A2),D2
ASL.L #2,D2
ADD.W D2,D1
MOVE.L (A0),D0
MOVEQ #1,D7
CMP.W D0,D1
BLT DONE
MOVEQ #0,D7
DONE: SIMHALT
END
