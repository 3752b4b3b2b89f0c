; The firmware of a small gallery sign, for the HCS12, in the language of GNU's assembler.
;
; It holds a list of rooms, each with the picture that hangs there and the minute at which that stops being true. It counts the
; minutes itself, by a request that comes once a minute: that count is its only clock. It answers questions that are put into a
; mailbox, and on the power warning (XIRQ) it saves its list and its clock before the supply falls.
;
; Nothing that the warning saves is ever changed in place. The new list, or the new time, is built in a spare copy, and one store
; of one address then puts it in use. So wherever the warning comes, it finds a whole list and a whole time.
;
; Nothing that was saved is changed in place either. There are two blocks, and a save goes into the one that is not the newest whole
; one. So wherever the supply falls, the newest whole save is still there.

; ---- The memory ----
; From 0x2000 on: working memory, lost when the supply falls. From 0x3000 on: the two saved blocks, which keep their bytes.

; The mailbox. A question is a number in mail_request; the answer is there when that is 0 again.
        .equ    mailbox,        0x2000
        .equ    mail_request,   mailbox         ; 1 picture, 2 draft, 3 hang, 4 status, 5 set the time
        .equ    mail_answer,    mailbox+1       ; 0 done, 1 out of date, 2 no such room, 3 not understood
        .equ    mail_slot,      mailbox+2       ; draft: the place in the list; hang: how many places it has
        .equ    mail_season,    mailbox+3       ; hang and status: the number of the list; 0 is that of no list
        .equ    mail_entry,     mailbox+4       ; an entry, as in the list
        .equ    mail_room,      mail_entry
        .equ    mail_until,     mail_entry+2    ; status and set: the time

; Two copies of the time in minutes, four bytes each, and the address of the one that counts.
        .equ    time_in_use,    0x2010
        .equ    time_one,       0x2014
        .equ    time_two,       0x2018

; Two lists, and the address of the one that counts; the other is the draft. A list is its season, the number of its entries, and
; the entries: room, picture, and in four bytes the minute from which on the entry is out of date.
        .equ    list_in_use,    0x2020
        .equ    list_one,       0x2040
        .equ    list_two,       0x2080
        .equ    season,         0               ; places within a list
        .equ    count,          1
        .equ    entries,        2
        .equ    room,           0               ; places within an entry
        .equ    until,          2
        .equ    entry_size,     6
        .equ    most_entries,   8
        .equ    list_size,      entries+most_entries*entry_size

; Where the next save goes, and its number: 0 to 255, and then 0 again.
        .equ    next_block,     0x2030
        .equ    next_number,    0x2032

        .equ    stack,          0x3000          ; it grows downwards

; A saved block: its number, a list, a time, the sum of all their words, and a mark that says whether they are whole.
        .equ    number,         0               ; places within a block
        .equ    saved_list,     number+2
        .equ    saved_time,     saved_list+list_size
        .equ    sum,            saved_time+4
        .equ    mark,           sum+2
        .equ    block_size,     mark+2
        .equ    whole,          0xA55A
        .equ    block_one,      0x3000
        .equ    block_two,      block_one+block_size
        .equ    blocks_end,     block_two+block_size

        .text
        .org    0xC000

; What the world outside has to know, at the first address of the program.
        .word   mailbox                         ; the first address that the program writes
        .word   block_one, blocks_end           ; the second is past the last address that it writes
        .word   list_is_safe                    ; where the processor stops after a power warning

; ---- Switching on ----
; The reset leaves X and I set, so nothing comes between until a list is in use.
start:  lds     #stack
        movw    #list_one, list_in_use
        movw    #time_one, time_in_use
        clr     mail_request

; The newest whole block is taken, and the next save goes into the other one. Of two that are whole the numbers differ by one, and
; the difference as a signed byte says which is the newer, also where the numbers have gone round.
        ldx     #block_two
        bsr     is_whole
        bne     two_is_not
        ldx     #block_one
        bsr     is_whole
        bne     take_two
        ldab    block_two+number+1
        subb    block_one+number+1
        bpl     take_two
take_one:
        ldx     #block_one
        ldy     #block_two
        bra     take
two_is_not:
        ldx     #block_one
        bsr     is_whole
        beq     take_one
        bra     empty
take_two:
        ldx     #block_two
        ldy     #block_one
take:   sty     next_block
        ldd     2,x+                            ; the number; X is then at the list
        incb
        std     next_number
        ldy     #list_one
        bsr     copy_list                       ; X is then at the time
        movw    0,x, time_one
        movw    2,x, time_one+2
        bra     ready

; Without a whole block the sign begins with no rooms, at minute 0. Questions 2, 3 and 5 give it a list and the time.
empty:  movw    #block_one, next_block
        movw    #0, next_number
        ldx     #list_one
        ldab    #list_size/2
clear_word:
        movw    #0, 2,x+
        dbne    b,clear_word
        movw    #0, time_one
        movw    #0, time_one+2

ready:  andcc   #0xAF                           ; X and I clear: from here on warnings and requests are taken
rest:   wai
        bra     rest

; ---- The minute ----
; One minute is added in the spare copy, which is then put in use.
minute: ldx     time_in_use
        ldd     0,x
        ldy     2,x
        iny
        bne     add_end
        addd    #1                              ; the low word went round to 0
add_end:
        bsr     find_spare_time
        std     0,x
        sty     2,x
        stx     time_in_use                     ; the one store that makes it the time
        rti

; X becomes the address of the time that is not in use. D and Y stay.
find_spare_time:
        ldx     #time_one
        cpx     time_in_use
        bne     spare_found
        ldx     #time_two
spare_found:
        rts

; ---- A question ----
question:
        ldab    mail_request
        cmpb    #1
        beq     picture
        cmpb    #2
        beq     draft
        cmpb    #3
        beq     hang
        cmpb    #4
        beq     status
        cmpb    #5
        beq     set_time
not_understood:
        ldaa    #3
        bra     answer
no_such_room:
        ldaa    #2
        bra     answer
out_of_date:
        ldaa    #1
        bra     answer
done:   clra
answer: staa    mail_answer
        clr     mail_request                    ; after the answer, so that 0 means that it is there
        rti

; Which picture hangs in mail_room? It is out of date from the minute of its entry on. Where there is no list at all, every room is
; out of date: so whoever asks learns that a list is needed.
picture:
        ldx     list_in_use
        ldab    count,x
        beq     out_of_date
        leax    entries,x
        ldaa    mail_room
search: cmpa    room,x
        beq     found
        leax    entry_size,x
        dbne    b,search
        bra     no_such_room
found:  ldy     time_in_use
        ldd     0,y
        cpd     until,x
        bhi     out_of_date
        blo     in_date
        ldd     2,y
        cpd     until+2,x
        bhs     out_of_date
in_date:
        movw    0,x, mail_entry
        movw    2,x, mail_entry+2
        movw    4,x, mail_entry+4
        bra     done

; Writes mail_entry into place mail_slot of the draft. The list in use does not change.
draft:  ldab    mail_slot
        cmpb    #most_entries
        bhs     not_understood
        ldaa    #entry_size
        mul
        bsr     find_draft
        leax    d,x
        movw    mail_entry, entries,x
        movw    mail_entry+2, entries+2,x
        movw    mail_entry+4, entries+4,x
        bra     done

; The draft becomes the list in use, with mail_slot entries and the number mail_season; the old list becomes the draft.
hang:   ldab    mail_slot
        cmpb    #most_entries
        bhi     not_understood
        ldaa    mail_season
        bsr     find_draft
        std     season,x                        ; season and count lie side by side
        stx     list_in_use                     ; the one store that changes the list
        bra     done

; The number of the list in use, and the time.
status: ldx     list_in_use
        movb    season,x, mail_season
        ldx     time_in_use
        movw    0,x, mail_until
        movw    2,x, mail_until+2
        bra     done

; The time becomes mail_until. As with the minute, it is written into the spare copy.
set_time:
        bsr     find_spare_time
        movw    mail_until, 0,x
        movw    mail_until+2, 2,x
        stx     time_in_use                     ; the one store that makes it the time
        bra     done

; X becomes the address of the list that is not in use. D stays.
find_draft:
        ldx     #list_one
        cpx     list_in_use
        bne     draft_found
        ldx     #list_two
draft_found:
        rts

; ---- The power warning ----
; It can come between any two instructions above. The mark is taken off first and put back last, so that a block that is cut short
; is never taken for a whole one; the other block, which has the save before this one, is not touched.
warning:
        ldy     next_block
        ldd     #0
        std     mark,y
        movw    next_number, 2,y+               ; Y is then at the block's list
        ldx     list_in_use
        bsr     copy_list                       ; Y is then at its time
        ldx     time_in_use
        movw    0,x, 0,y
        movw    2,x, 2,y
        ldx     next_block
        bsr     sum_of_block                    ; X is then at its sum
        std     0,x
        movw    #whole, 2,x

; Nothing is left to do: the supply may fall. There is no way back, for a second warning would write over what is safe; a supply
; that recovers resets the processor.
list_is_safe:
        bgnd
        bra     list_is_safe

; Copies a list from X to Y, and leaves both behind it.
copy_list:
        ldab    #list_size/2
copy_word:
        movw    2,x+, 2,y+
        dbne    b,copy_word
        rts

; Z is set where the block at X is marked whole and its sum is right.
is_whole:
        ldd     mark,x
        cpd     #whole
        bne     judged
        bsr     sum_of_block
        cpd     0,x
judged: rts

; D becomes the sum of the words of the block at X: number, list and time. X becomes the address behind them, that of the sum kept.
sum_of_block:
        ldy     #sum/2
        ldd     #0
add_word:
        addd    2,x+
        dbne    y,add_word
        rts

; A request that this sign does not know stops it here.
stray:  bgnd
        bra     stray

; ---- The vectors ----
        .org    0xFFEA
        .word   stray, stray                    ; 0xFFEA and 0xFFEC: devices
        .word   question                        ; 0xFFEE: bit 3 of the lines, a question lies in the mailbox
        .word   minute                          ; 0xFFF0: bit 2 of the lines, a minute has passed
        .word   stray                           ; 0xFFF2: IRQ
        .word   warning                         ; 0xFFF4: XIRQ, the supply is about to fall
        .word   stray, stray, stray, stray      ; 0xFFF6 to 0xFFFC: SWI, trap, watchdog, clock monitor
        .word   start                           ; 0xFFFE: reset
