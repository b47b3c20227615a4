; Points by tier: a sale of 47.50 to a silver member.
;
; Bronze earns a point for each full unit, silver two, gold three and 50 on top; any other tier earns none.

base   0x10000
pages  1
frames 4
slots  64
budget 100

name bronze "bronze"
name silver "silver"
name gold   "gold"
; Interned like the others: it is the same text, and so the same value.
name tier   "silver"

global cents 4750

; Keys are where the names lie. Slots between them, and the tiers outside the table, go to `other`.
switch by_tier else other: bronze=at_bronze silver=at_silver gold=at_gold

    LoadG  r1, cents
    IDivI  r2, r1, 100          ; full units
    LoadG  r3, tier
    Switch Str, r3, by_tier
other:                          ; falling through leads here as well
    LoadI  r0, 0
    Halt
at_bronze:
    Mov    r0, r2
    Halt
at_silver:
    IMulI  r0, r2, 2
    Halt
at_gold:
    IMulI  r0, r2, 3
    IAddI  r0, r0, 50
    Halt
