; A rule that stops: points for each visit, of a member who has made none.
;
; The report begins with 01, division by zero, the place of the instruction that stopped and the steps before it. Registers are as they
; were, and the depth is 2: the call had not returned.

base   0x10000
pages  1
frames 4
slots  64
budget 100

global points 940
global visits 0

    LoadG  r0, points
    LoadG  r1, visits
    Call   average
    Halt

average:
    IDiv   r2, r0, r1
    Ret
    Halt
