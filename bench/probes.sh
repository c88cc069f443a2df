#!/usr/bin/env bash
# How many host instructions an AVR instruction takes: bench/probes.sh [PROGRAM] counts them for small
# programs, each of which does one thing (the table below), and compares them with the most that each may take. It also
# compares what two networks take by threads and on one thread, so that waiting which burns processors is told. It
# proves nothing: PROGRAM is one that was built (without it, that of ./avrora, which proves it first). It takes under
# four minutes, and says that it is skipped if valgrind is missing. Exit status: 0 all take no more, 1 one takes more
# or fails.
#
# Counts hardly vary from run to run or from machine to machine. The most is a tenth above what was counted last, and for
# a network a twentieth; where a change makes a count fall, lower its line.
. "$(dirname "$0")/help.sh"
set -eu
if ! command -v valgrind >/dev/null; then
    echo "bench/probes.sh: skipped, valgrind is not installed"
    exit 0
fi
. "$(dirname "$0")/program.sh"
program=$(realpath "$program")

# NAME MOST WINDOW: SOURCE. Cycles are counted from 20,000 to 100,000. The window is `none`, or `late`: the last ten cycles of
# the run, before which no instruction has a row. Lines of the source are parted by `|`; the stack ends at 0x10FF.
probes() {
    cat <<'TABLE'
straight                     25 none: again: | ldi r20, 1 | dec r20 | ldi r20, 1 | dec r20 | ldi r20, 1 | dec r20 | ldi r20, 1 | dec r20 | ldi r20, 1 | dec r20 | ldi r20, 1 | dec r20 | rjmp again
straight_flag_each_cycle     25 none: ldi r16, 0 | out 0x31, r16 | ldi r16, 9 | out 0x33, r16 | again: | ldi r20, 1 | dec r20 | ldi r20, 1 | dec r20 | ldi r20, 1 | dec r20 | ldi r20, 1 | dec r20 | ldi r20, 1 | dec r20 | rjmp again
straight_late                25 late: again: | ldi r20, 1 | dec r20 | ldi r20, 1 | dec r20 | ldi r20, 1 | dec r20 | ldi r20, 1 | dec r20 | ldi r20, 1 | dec r20 | ldi r20, 1 | dec r20 | rjmp again
dec2                         28 none: again: | ldi r20, 2 | loop: | dec r20 | brne loop | rjmp again
dec3                         28 none: again: | ldi r20, 3 | loop: | dec r20 | brne loop | rjmp again
dec4                         29 none: again: | ldi r20, 4 | loop: | dec r20 | brne loop | rjmp again
dec5                         30 none: again: | ldi r20, 5 | loop: | dec r20 | brne loop | rjmp again
dec8                         31 none: again: | ldi r20, 8 | loop: | dec r20 | brne loop | rjmp again
dec255                     4.99 none: again: | ldi r20, 255 | loop: | dec r20 | brne loop | rjmp again
delay                      0.02 none: again: | ldi r24, 255 | ldi r25, 255 | loop: | sbiw r24, 1 | brne loop | rjmp again
delay_late                 0.02 late: again: | ldi r24, 255 | ldi r25, 255 | loop: | sbiw r24, 1 | brne loop | rjmp again
delay_line_up              0.02 none: ldi r16, 1 | out 0x33, r16 | out 0x37, r16 | again: | ldi r24, 255 | ldi r25, 255 | loop: | sbiw r24, 1 | brne loop | rjmp again
delay_subi_sbci            0.19 none: again: | ldi r24, 255 | ldi r25, 255 | loop: | subi r24, 1 | sbci r25, 0 | brne loop | rjmp again
delay_sbiw_cp_cpc            40 none: ldi r22, 0 | again: | ldi r24, 255 | ldi r25, 255 | loop: | sbiw r24, 1 | cp r24, r22 | cpc r25, r22 | brne loop | rjmp again
delay_adiw                   40 none: again: | ldi r24, 0 | ldi r25, 0 | loop: | adiw r24, 1 | brne loop | rjmp again
delay_volatile               33 none: again: | ldi r24, 255 | sts 0x100, r24 | loop: | lds r24, 0x100 | subi r24, 1 | sts 0x100, r24 | tst r24 | brne loop | rjmp again
spin                       0.02 none: again: | rjmp again
spin_late                  0.02 late: again: | rjmp again
spin_line_up               0.02 none: ldi r16, 1 | out 0x33, r16 | out 0x37, r16 | again: | rjmp again
spin_flag_each_cycle       0.02 none: ldi r16, 0 | out 0x31, r16 | ldi r16, 9 | out 0x33, r16 | again: | rjmp again
poll_udre                  0.14 none: ldi r17, 8 | out 0x0A, r17 | ldi r17, 255 | out 0x09, r17 | again: | sts 0x2C, r16 | wait: | lds r16, 0x2B | sbrs r16, 5 | rjmp wait | rjmp again
poll_udre_late             0.13 late: ldi r17, 8 | out 0x0A, r17 | ldi r17, 255 | out 0x09, r17 | again: | sts 0x2C, r16 | wait: | lds r16, 0x2B | sbrs r16, 5 | rjmp wait | rjmp again
poll_udre_line_up          0.27 none: ldi r16, 1 | out 0x33, r16 | out 0x37, r16 | ldi r17, 8 | out 0x0A, r17 | ldi r17, 255 | out 0x09, r17 | again: | sts 0x2C, r16 | wait: | lds r16, 0x2B | sbrs r16, 5 | rjmp wait | rjmp again
poll_udre_timer            0.22 none: ldi r16, 1 | out 0x33, r16 | ldi r17, 8 | out 0x0A, r17 | ldi r17, 255 | out 0x09, r17 | again: | sts 0x2C, r16 | wait: | lds r16, 0x2B | sbrs r16, 5 | rjmp wait | rjmp again
poll_udre_flag_each_cycle  0.15 none: ldi r16, 0 | out 0x31, r16 | ldi r16, 9 | out 0x33, r16 | ldi r17, 8 | out 0x0A, r17 | ldi r17, 255 | out 0x09, r17 | again: | sts 0x2C, r16 | wait: | lds r16, 0x2B | sbrs r16, 5 | rjmp wait | rjmp again
poll_udre_by_pointer         55 none: ldi r30, 0x2B | ldi r31, 0 | ldi r17, 8 | out 0x0A, r17 | ldi r17, 255 | out 0x09, r17 | again: | sts 0x2C, r16 | wait: | ld r16, Z | sbrs r16, 5 | rjmp wait | rjmp again
poll_udre_by_call            51 none: ldi r16, 0x10 | out 0x3E, r16 | ldi r16, 0xFF | out 0x3D, r16 | ldi r17, 8 | out 0x0A, r17 | ldi r17, 255 | out 0x09, r17 | again: | sts 0x2C, r16 | wait: | rcall state | tst r24 | breq wait | rjmp again | state: | lds r24, 0x2B | andi r24, 0x20 | ret
poll_udre_long               28 none: ldi r17, 8 | out 0x0A, r17 | ldi r17, 255 | out 0x09, r17 | again: | sts 0x2C, r16 | wait: | nop | nop | nop | nop | nop | nop | lds r16, 0x2B | sbrs r16, 5 | rjmp wait | rjmp again
poll_spif                  2.30 none: ldi r16, 0x53 | out 0x0D, r16 | again: | out 0x0F, r16 | wait: | sbis 0x0E, 7 | rjmp wait | rjmp again
poll_tifr                    56 none: ldi r16, 5 | out 0x33, r16 | ldi r17, 1 | again: | out 0x36, r17 | wait: | in r16, 0x36 | sbrs r16, 0 | rjmp wait | rjmp again
call                         42 none: ldi r16, 0x10 | out 0x3E, r16 | ldi r16, 0xFF | out 0x3D, r16 | again: | call sub | rjmp again | sub: | ret
rcall                        46 none: ldi r16, 0x10 | out 0x3E, r16 | ldi r16, 0xFF | out 0x3D, r16 | again: | rcall sub | rjmp again | sub: | ret
icall                        45 none: ldi r16, 0x10 | out 0x3E, r16 | ldi r16, 0xFF | out 0x3D, r16 | ldi r30, 8 | ldi r31, 0 | again: | icall | rjmp again | sub: | ret
load_post_increment          27 none: again: | ldi r26, 0 | ldi r27, 2 | ldi r28, 0 | ldi r29, 3 | ld r20, X+ | ld r20, X+ | ld r20, X+ | ld r20, X+ | ld r20, X+ | ld r20, X+ | ld r20, X+ | ld r20, X+ | ld r20, X+ | ld r20, X+ | ld r20, X+ | ld r20, X+ | rjmp again
load_pre_decrement           28 none: again: | ldi r26, 0 | ldi r27, 2 | ldi r28, 0 | ldi r29, 3 | ld r20, -Y | ld r20, -Y | ld r20, -Y | ld r20, -Y | ld r20, -Y | ld r20, -Y | ld r20, -Y | ld r20, -Y | ld r20, -Y | ld r20, -Y | ld r20, -Y | ld r20, -Y | rjmp again
store_pre_decrement          27 none: again: | ldi r26, 0 | ldi r27, 2 | ldi r28, 0 | ldi r29, 3 | st -Y, r20 | st -Y, r20 | st -Y, r20 | st -Y, r20 | st -Y, r20 | st -Y, r20 | st -Y, r20 | st -Y, r20 | st -Y, r20 | st -Y, r20 | st -Y, r20 | st -Y, r20 | rjmp again
load_displaced               27 none: again: | ldi r26, 0 | ldi r27, 2 | ldi r28, 0 | ldi r29, 3 | ldd r20, Y+5 | ldd r20, Y+5 | ldd r20, Y+5 | ldd r20, Y+5 | ldd r20, Y+5 | ldd r20, Y+5 | ldd r20, Y+5 | ldd r20, Y+5 | ldd r20, Y+5 | ldd r20, Y+5 | ldd r20, Y+5 | ldd r20, Y+5 | rjmp again
load_flash                   26 none: again: | ldi r30, 0 | ldi r31, 0 | lpm r20, Z+ | lpm r20, Z+ | lpm r20, Z+ | lpm r20, Z+ | lpm r20, Z+ | lpm r20, Z+ | lpm r20, Z+ | lpm r20, Z+ | lpm r20, Z+ | lpm r20, Z+ | lpm r20, Z+ | lpm r20, Z+ | rjmp again
push_pop                     30 none: ldi r16, 0x10 | out 0x3E, r16 | ldi r16, 0xFF | out 0x3D, r16 | again: | push r20 | pop r20 | push r20 | pop r20 | push r20 | pop r20 | push r20 | pop r20 | push r20 | pop r20 | push r20 | pop r20 | rjmp again
line_up_registers            29 none: ldi r16, 1 | out 0x33, r16 | out 0x37, r16 | again: | inc r20 | inc r20 | inc r20 | inc r20 | inc r20 | inc r20 | rjmp again
line_up_long_number          34 none: ldi r16, 1 | out 0x33, r16 | out 0x37, r16 | again: | subi r20, 1 | sbci r21, 0 | add r22, r23 | brne again | rjmp again
line_up_stack                29 none: ldi r16, 0x10 | out 0x3E, r16 | ldi r16, 0xFF | out 0x3D, r16 | ldi r16, 1 | out 0x33, r16 | out 0x37, r16 | again: | push r20 | pop r20 | lds r20, 0x200 | sts 0x201, r20 | rjmp again
line_up_sei_cli             115 none: rjmp begin | nop | nop | nop | nop | nop | nop | nop | nop | nop | nop | nop | nop | nop | nop | nop | nop | nop | nop | nop | nop | nop | nop | nop | nop | nop | nop | nop | nop | nop | nop | nop | reti | nop | nop | nop | nop | nop | nop | nop | nop | nop | nop | nop | nop | nop | begin: | ldi r16, 0x10 | out 0x3E, r16 | ldi r16, 0xFF | out 0x3D, r16 | ldi r16, 1 | out 0x33, r16 | out 0x37, r16 | again: | sei | cli | inc r20 | rjmp again
tifr_four_timers           2315 none: ldi r16, 9 | out 0x33, r16 | out 0x25, r16 | sts 0x8A, r16 | sts 0x2E, r16 | ldi r16, 2 | out 0x31, r16 | out 0x23, r16 | out 0x2A, r16 | ldi r16, 9 | out 0x2E, r16 | ldi r16, 4 | sts 0x86, r16 | ldi r16, 9 | sts 0x8A, r16 | ldi r17, 255 | again: | sts 0x56, r17 | rjmp again
tcnt1_four_timers           175 none: ldi r16, 9 | out 0x33, r16 | out 0x25, r16 | ldi r16, 2 | out 0x31, r16 | out 0x23, r16 | out 0x2A, r16 | ldi r16, 9 | out 0x2E, r16 | ldi r16, 4 | sts 0x86, r16 | ldi r16, 9 | sts 0x8A, r16 | again: | lds r20, 0x4C | rjmp again
tifr_ctc_5                  319 none: ldi r16, 9 | out 0x33, r16 | ldi r16, 5 | out 0x31, r16 | ldi r17, 255 | again: | out 0x36, r17 | rjmp again
tcnt0_ctc_2                 130 none: ldi r16, 9 | out 0x33, r16 | ldi r16, 2 | out 0x31, r16 | again: | in r20, 0x32 | rjmp again
ocr1ah_write                 84 none: ldi r17, 1 | out 0x2E, r17 | again: | out 0x2B, r16 | rjmp again
ocr0_halted                 100 none: again: | sts 0x51, r16 | rjmp again
tccr0_halted                112 none: again: | sts 0x53, r20 | rjmp again
udr0_read                    71 none: ldi r17, 0x18 | out 0x0A, r17 | again: | in r20, 0x0C | rjmp again
udr0_write                   85 none: ldi r17, 8 | out 0x0A, r17 | ldi r17, 255 | out 0x09, r17 | again: | out 0x0C, r20 | rjmp again
spdr_write                   91 none: ldi r16, 0x53 | out 0x0D, r16 | again: | out 0x0F, r16 | rjmp again
portb_write                  69 none: again: | out 0x18, r20 | rjmp again
delay_subi                   34 none: again: | ldi r24, 32 | loop: | subi r24, 1 | brne loop | rjmp again
sleep_off                   186 none: again: | sleep | rjmp again
critical_section             51 none: rjmp begin | nop | nop | nop | nop | nop | nop | nop | nop | nop | nop | nop | nop | nop | nop | nop | nop | nop | nop | nop | nop | nop | nop | nop | nop | nop | nop | nop | nop | nop | reti | nop | reti | nop | nop | nop | nop | nop | nop | nop | nop | nop | nop | nop | nop | nop | begin: | ldi r16, 0x10 | out 0x3E, r16 | ldi r16, 0xFF | out 0x3D, r16 | ldi r16, 9 | out 0x33, r16 | ldi r16, 63 | out 0x31, r16 | ldi r16, 2 | out 0x37, r16 | again: | cli | inc r20 | inc r20 | inc r20 | inc r20 | inc r20 | inc r20 | inc r20 | inc r20 | inc r20 | inc r20 | inc r20 | inc r20 | inc r20 | inc r20 | inc r20 | inc r20 | inc r20 | inc r20 | inc r20 | inc r20 | inc r20 | inc r20 | inc r20 | inc r20 | inc r20 | inc r20 | inc r20 | inc r20 | inc r20 | inc r20 | inc r20 | inc r20 | inc r20 | inc r20 | inc r20 | inc r20 | inc r20 | inc r20 | inc r20 | inc r20 | sei | rjmp again
interrupt_each_6            670 none: rjmp begin | nop | nop | nop | nop | nop | nop | nop | nop | nop | nop | nop | nop | nop | nop | nop | nop | nop | nop | nop | nop | nop | nop | nop | nop | nop | nop | nop | nop | nop | reti | nop | reti | nop | nop | nop | nop | nop | nop | nop | nop | nop | nop | nop | nop | nop | begin: | ldi r16, 0x10 | out 0x3E, r16 | ldi r16, 0xFF | out 0x3D, r16 | ldi r16, 9 | out 0x33, r16 | ldi r16, 5 | out 0x31, r16 | ldi r16, 2 | out 0x37, r16 | sei | again: | inc r20 | inc r20 | inc r20 | inc r20 | inc r20 | rjmp again
interrupt_each_16           129 none: rjmp begin | nop | nop | nop | nop | nop | nop | nop | nop | nop | nop | nop | nop | nop | nop | nop | nop | nop | nop | nop | nop | nop | nop | nop | nop | nop | nop | nop | nop | nop | reti | nop | reti | nop | nop | nop | nop | nop | nop | nop | nop | nop | nop | nop | nop | nop | begin: | ldi r16, 0x10 | out 0x3E, r16 | ldi r16, 0xFF | out 0x3D, r16 | ldi r16, 9 | out 0x33, r16 | ldi r16, 15 | out 0x31, r16 | ldi r16, 2 | out 0x37, r16 | sei | again: | inc r20 | inc r20 | inc r20 | inc r20 | inc r20 | rjmp again
sleep_woken_each_32         431 none: rjmp begin | nop | nop | nop | nop | nop | nop | nop | nop | nop | nop | nop | nop | nop | nop | nop | nop | nop | nop | nop | nop | nop | nop | nop | nop | nop | nop | nop | nop | nop | reti | nop | reti | nop | nop | nop | nop | nop | nop | nop | nop | nop | nop | nop | nop | nop | begin: | ldi r16, 0x10 | out 0x3E, r16 | ldi r16, 0xFF | out 0x3D, r16 | ldi r16, 9 | out 0x33, r16 | ldi r16, 31 | out 0x31, r16 | ldi r16, 2 | out 0x37, r16 | ldi r16, 0x20 | out 0x35, r16 | sei | again: | sleep | rjmp again
line_up_load_store           32 none: ldi r16, 1 | out 0x33, r16 | out 0x37, r16 | again: | lds r20, 0x0200 | inc r20 | sts 0x200, r20 | rjmp again
timsk_toggled               172 none: ldi r16, 0x07 | out 0x33, r16 | ldi r17, 2 | ldi r18, 0 | again: | inc r20 | inc r20 | out 0x37, r17 | inc r20 | inc r20 | out 0x37, r18 | rjmp again
line_up_load               0.02 none: ldi r16, 1 | out 0x33, r16 | out 0x37, r16 | again: | lds r20, 0x200 | inc r20 | rjmp again
line_up_flag_test           204 none: ldi r16, 1 | out 0x33, r16 | out 0x37, r16 | again: | in r20, 0x36 | sbrc r20, 7 | rjmp again | rjmp again
two_ticks                    42 none: rjmp begin | nop | nop | nop | nop | nop | nop | nop | nop | nop | nop | nop | nop | nop | nop | nop | nop | nop | nop | nop | rjmp tick | nop | nop | nop | nop | nop | nop | nop | nop | nop | nop | nop | rjmp tick | nop | nop | nop | nop | nop | nop | nop | nop | nop | nop | nop | nop | nop | begin: | ldi r16, 0x10 | out 0x3E, r16 | ldi r16, 0xFF | out 0x3D, r16 | ldi r16, 1 | out 0x33, r16 | out 0x25, r16 | ldi r16, 128 | out 0x24, r16 | ldi r16, 0x41 | out 0x37, r16 | sei | again: | inc r20 | inc r20 | inc r20 | inc r20 | inc r20 | rjmp again | tick: | inc r20 | inc r20 | inc r20 | inc r20 | inc r20 | inc r20 | inc r20 | inc r20 | inc r20 | inc r20 | inc r20 | inc r20 | inc r20 | inc r20 | inc r20 | inc r20 | inc r20 | inc r20 | inc r20 | inc r20 | inc r20 | inc r20 | inc r20 | inc r20 | inc r20 | inc r20 | inc r20 | inc r20 | inc r20 | inc r20 | inc r20 | inc r20 | inc r20 | inc r20 | inc r20 | inc r20 | inc r20 | inc r20 | inc r20 | inc r20 | inc r20 | inc r20 | inc r20 | inc r20 | inc r20 | inc r20 | inc r20 | inc r20 | inc r20 | inc r20 | inc r20 | inc r20 | inc r20 | inc r20 | inc r20 | inc r20 | inc r20 | inc r20 | inc r20 | inc r20 | reti
interrupt_each_10           298 none: rjmp begin | nop | nop | nop | nop | nop | nop | nop | nop | nop | nop | nop | nop | nop | nop | nop | nop | nop | nop | nop | nop | nop | nop | nop | nop | nop | nop | nop | nop | nop | reti | nop | nop | nop | nop | nop | nop | nop | nop | nop | nop | nop | nop | nop | nop | nop | begin: | ldi r16, 0x10 | out 0x3E, r16 | ldi r16, 0xFF | out 0x3D, r16 | ldi r16, 9 | out 0x33, r16 | ldi r16, 9 | out 0x31, r16 | ldi r16, 2 | out 0x37, r16 | sei | again: | inc r20 | inc r20 | inc r20 | inc r20 | inc r20 | rjmp again
storm_udre                  326 none: rjmp begin | nop | nop | nop | nop | nop | nop | nop | nop | nop | nop | nop | nop | nop | nop | nop | nop | nop | nop | nop | nop | nop | nop | nop | nop | nop | nop | nop | nop | nop | nop | nop | nop | nop | nop | nop | nop | nop | reti | nop | nop | nop | nop | nop | nop | nop | begin: | ldi r16, 0x10 | out 0x3E, r16 | ldi r16, 0xFF | out 0x3D, r16 | ldi r16, 0x28 | out 0x0A, r16 | sei | again: | inc r20 | inc r20 | inc r20 | inc r20 | inc r20 | rjmp again
sleep_woken_each_10         613 none: rjmp begin | nop | nop | nop | nop | nop | nop | nop | nop | nop | nop | nop | nop | nop | nop | nop | nop | nop | nop | nop | nop | nop | nop | nop | nop | nop | nop | nop | nop | nop | reti | nop | nop | nop | nop | nop | nop | nop | nop | nop | nop | nop | nop | nop | nop | nop | begin: | ldi r16, 0x10 | out 0x3E, r16 | ldi r16, 0xFF | out 0x3D, r16 | ldi r16, 9 | out 0x33, r16 | ldi r16, 9 | out 0x31, r16 | ldi r16, 2 | out 0x37, r16 | ldi r16, 0x20 | out 0x35, r16 | sei | again: | sleep | rjmp again
out_tifr_four_timers       2262 none: ldi r16, 9 | out 0x33, r16 | out 0x25, r16 | sts 0x8A, r16 | sts 0x2E, r16 | ldi r16, 2 | out 0x31, r16 | out 0x23, r16 | out 0x2A, r16 | ldi r16, 9 | out 0x2E, r16 | ldi r16, 4 | sts 0x86, r16 | ldi r16, 9 | sts 0x8A, r16 | ldi r17, 255 | again: | out 0x36, r17 | rjmp again
portb_stored                 71 none: again: | sts 0x38, r20 | rjmp again
radio_sample                 54 none: sbi 0x17, 0 | cbi 0x18, 0 | ldi r16, 0x50 | out 0x0D, r16 | again: | ldi r16, 2 | out 0x0F, r16 | w1: | sbis 0x0E, 7 | rjmp w1 | out 0x0F, r1 | w2: | sbis 0x0E, 7 | rjmp w2 | out 0x0F, r1 | w3: | sbis 0x0E, 7 | rjmp w3 | out 0x0F, r1 | w4: | sbis 0x0E, 7 | rjmp w4 | in r20, 0x0F | rjmp again
poll_spif_half              107 none: ldi r16, 0x50 | out 0x0D, r16 | ldi r16, 1 | out 0x0E, r16 | again: | out 0x0F, r16 | wait: | sbis 0x0E, 7 | rjmp wait | rjmp again
call_over_ports              93 none: ldi r16, 0 | out 0x3E, r16 | again: | ldi r16, 0x35 | out 0x3D, r16 | rcall here | here: | rjmp again
call_over_timer_1           121 none: ldi r16, 0 | out 0x3E, r16 | again: | ldi r16, 0x4B | out 0x3D, r16 | rcall here | here: | rjmp again
push_pop_over_ports          79 none: ldi r16, 0 | out 0x3E, r16 | ldi r16, 0x35 | out 0x3D, r16 | again: | push r1 | pop r20 | rjmp again
TABLE
}

# HOST and EXECUTED of a run of so many cycles.
count() {
    local cycles=$1 window=$2
    {
        echo "cycles = $cycles"
        [ "$window" = none ] || echo "window = [$((cycles - 10)), $cycles]"
        echo 'node = [{ image = "probe.hex" }]'
    } >"$work/probe.toml"
    host=$(cd "$work" && valgrind --tool=callgrind --callgrind-out-file=/dev/null "$program" run --plain probe.toml 2>&1 >rows | awk '/Collected/ { print $4 }')
    executed=$(awk 'END { print $(NF - 1) }' "$work/rows")
}

# HOST of a call with these words, in the folder of the run.
host_of() {
    (cd "$work" && valgrind --tool=callgrind --callgrind-out-file=/dev/null "$program" "$@" 2>&1 >/dev/null | awk '/Collected/ { print $4 }')
}

# HOST of `monitor`, or of `watch` with the places in a file, over all of so many cycles of the last probe's image.
spanned() {
    printf 'cycles = %d\nnode = [{ image = "probe.hex" }]\n' "$2" >"$work/probe.toml"
    host_of "$1" probe.toml 0 "$2" "${@:3}"
}

# HOST of a sweep of a sleeping node to which so many stretches of a byte come, in order, behind a state of 262,144 cycles.
stretches() {
    awk -v n="$1" 'BEGIN { printf "0"; for (k = 0; k < n; k++) printf " %d 1 41", 262154 + 15 * k; print "" }' >"$work/moves"
    host_of sweep probe.toml probe.state moves
}

# over NAME COUNT MOST HOST: tells HOST for each of COUNT, at most MOST.
over() {
    awk -v n="$1" -v c="$2" -v m="$3" -v h="$4" 'BEGIN {
        printf "%s: %.2f, at most %s%s\n", n, h / c, m, (h > m * c) ? ": MORE" : ""
        exit (h > m * c) }' || status=1
}

status=0
while read -r name most window source; do
    tr '|' '\n' <<<"$source" >"$work/probe.s"
    if ! "$program" asm "$work/probe.s" >"$work/probe.hex"; then
        echo "$name: no image"
        status=1
        continue
    fi
    count 20000 "${window%:}"
    h=$host e=$executed
    count 100000 "${window%:}"
    awk -v n="$name" -v m="$most" -v h="$((host - h))" -v e="$((executed - e))" 'BEGIN {
        if (e <= 0) { print n ": executes nothing"; exit 1 }
        printf "%s: %.2f, at most %s%s\n", n, h / e, m, (h > m * e) ? ": MORE" : ""
        exit (h > m * e) }' || status=1
done < <(probes)

# Rows are tallied many at once: with few at once, `monitor` takes far more for a cycle.
printf 'again:\nldi r20, 1\ndec r20\nrjmp again\n' >"$work/probe.s"
"$program" asm "$work/probe.s" >"$work/probe.hex"
h=$(spanned monitor 20000)
over "monitor, a cycle" 80000 278 "$(($(spanned monitor 100000) - h))"

# Bytes of the SRAM that stay as they are, and instructions of which none begins, are passed over many at once.
seq 256 319 | xargs printf '0 byte %04X\n' >"$work/bytes"
h=$(spanned watch 2000 bytes)
over "watch of 64 bytes, a cycle" 10000 529 "$(($(spanned watch 12000 bytes) - h))"
{ head -n 1 "$work/bytes" && seq 32768 32831 | xargs printf '0 at %04X\n'; } >"$work/mixed"
h=$(spanned watch 2000 mixed)
over "watch of a byte and 64 instructions, a cycle" 10000 535 "$(($(spanned watch 12000 mixed) - h))"
sed 1d "$work/mixed" >"$work/instructions"
h=$(spanned watch 2000 instructions)
over "watch of 64 instructions, a cycle" 10000 528 "$(($(spanned watch 12000 instructions) - h))"

printf 'ldi r16, 0x20\nout 0x35, r16\nagain:\nsleep\nrjmp again\n' >"$work/probe.s"
"$program" asm "$work/probe.s" >"$work/probe.hex"
printf 'cycles = 524288\nnode = [{ image = "probe.hex" }]\n' >"$work/probe.toml"
(cd "$work" && "$program" save probe.toml 1 >probe.state)
h=$(stretches 1024)
over "a stretch of 16,384" 15360 2908 "$(($(stretches 16384) - h))"

# Under valgrind one thread runs at a time, so a thread that looks for the others instead of sleeping takes far more.
cp "$top/bench/ring.hex" "$top/examples/flood.hex" "$work"
network 8 ring 300000 "latency = 3072" "byte_time = 3072" >"$work/network.toml"
over "ring of 8, run beside run --plain" "$(host_of run --plain network.toml)" 1.12 "$(host_of run network.toml)"
network 8 flood 600000 "latency = 300" "byte_time = 1024" >"$work/network.toml"
over "ring of 8 with flood, run beside run --plain" "$(host_of run --plain network.toml)" 1.10 "$(host_of run network.toml)"
exit $status
