; The total of a basket: a call for each line, and a coupon that may be there or not.
;
; r0 is the total in cents. A line takes its price in r1 and its quantity in r2. r10 is the coupon, an Option: a box of a tag and a
; value. Where there is none, the tag is 0, as in the box at base+16 that every machine starts with.

base   0x10000
pages  1
frames 4
slots  64
budget 1000

global milk   129
global bread  315
global cheese 489
global coupon 250

    LoadI  r0, 0
    LoadG  r1, milk
    LoadI  r2, 6
    Call   line
    LoadG  r1, bread
    LoadI  r2, 1
    Call   line
    LoadG  r1, cheese
    LoadI  r2, 2
    Call   line

    Alloc  r10, Option, 8, 16   ; [1, coupon]
    LoadI  r11, 1
    Store  r10, r11, 0
    LoadG  r12, coupon
    Store  r10, r12, 8

    Load   r11, r10, 0          ; is there one?
    JmpF   r11, pay
    Load   r12, r10, 8
    ISub   r0, r0, r12
pay:
    Halt

line:
    IMul   r3, r1, r2
    IAdd   r0, r0, r3
    Ret
    Halt                        ; the last word of every image
