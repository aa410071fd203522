; The hinge script for a real 68000 behind the camera (manlist): it keeps a frame whose score is 900, and stays at DONE.
        ORG $1000
LIMIT:  DC.L 900
SCORE:  DS.L 1
GO:     MOVEQ #3,D1
        MOVE.L SCORE,D2
        MOVE.L LIMIT,D3
        CMP.W D3,D2
        BNE MISS
        MOVEQ #1,D0
        BRA DONE
MISS:   MOVEQ #0,D0
DONE:   BRA DONE
        END
