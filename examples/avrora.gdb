# Words of a network as commands of gdb: avr-gdb -x examples/avrora.gdb packet.elf
# They are those of `monitor help`, and show where one stands then. See docs/DEBUGGING.md.
set pagination off
set architecture avr:5
set sysroot /
set remotetimeout 60
# All nodes go on together, also those with another image.
set schedule-multiple on

define avrora-show
    maintenance flush register-cache
    frame
end
document avrora-show
Show where the node stands now, without what gdb kept from before.
end

define avrora-here
    eval "thread apply %d -q echo", $_thread
end
document avrora-here
Tell the tool which thread gdb shows, where `thread apply` or `inferior` changed that.
end

define goto
    avrora-here
    monitor goto $arg0
    avrora-show
end
document goto
goto CYCLE, goto BOOKMARK: stand in a cycle, before what happens in it.
end

define cycle
    avrora-here
    monitor cycle
end
document cycle
The cycle, and what each node does.
end

define upto
    if $argc == 0
        help upto
    end
    if $argc == 1
        monitor next $arg0
    end
    if $argc == 2
        monitor next $arg0 $arg1
    end
    if $argc == 3
        monitor next $arg0 $arg1 $arg2
    end
    if $argc == 4
        monitor next $arg0 $arg1 $arg2 $arg3
    end
    avrora-show
end
document upto
upto EVENT [of NODE]: to the next event: sent, heard, clash, serial, stop, interrupt.
Behind `interrupt` a vector may stand: upto interrupt TIMER1_COMPA of 2.
end

define backto
    if $argc == 0
        help backto
    end
    if $argc == 1
        monitor last $arg0
    end
    if $argc == 2
        monitor last $arg0 $arg1
    end
    if $argc == 3
        monitor last $arg0 $arg1 $arg2
    end
    if $argc == 4
        monitor last $arg0 $arg1 $arg2 $arg3
    end
    avrora-show
end
document backto
backto EVENT [of NODE]: back to the last event before this, as `upto`.
end

define who
    monitor who
end
document who
Whose byte the node's last sample heard, and when it was sent.
end
