! Every function of include/kavdrell.h as Fortran declares it, with the answers that tests/header.c expects of it. Each number due is worked
! out from the rules, and each argument goes by its parameter's name. The last line is 'N passed, M failed'.
module kavdrell
    use, intrinsic :: iso_c_binding, only: c_int8_t, c_int32_t, c_int64_t, c_size_t
    implicit none

    type, bind(C) :: zone_minutes
        integer(c_int32_t) :: kind
        integer(c_int32_t) :: minutes
    end type

    type, bind(C) :: written
        integer(c_int32_t) :: kind
        integer(c_size_t) :: value
    end type

    interface
        integer(c_int64_t) function kavdrell_open(table, words, tasks, blocks, slots, makes_per_epoch, &
                                                  retirements_per_sweep) bind(C)
            import :: c_int32_t, c_int64_t, c_size_t
            integer(c_int32_t), intent(inout) :: table(*)
            integer(c_size_t), value :: words
            integer(c_int32_t), value :: tasks, blocks, slots, makes_per_epoch, retirements_per_sweep
        end function

        integer(c_int64_t) function kavdrell_start(table, words, task) bind(C)
            import :: c_int32_t, c_int64_t, c_size_t
            integer(c_int32_t), intent(inout) :: table(*)
            integer(c_size_t), value :: words
            integer(c_int32_t), value :: task
        end function

        integer(c_int64_t) function kavdrell_look(table, words, task, slot) bind(C)
            import :: c_int32_t, c_int64_t, c_size_t
            integer(c_int32_t), intent(inout) :: table(*)
            integer(c_size_t), value :: words
            integer(c_int32_t), value :: task, slot
        end function

        integer(c_int64_t) function kavdrell_settle(table, words, task) bind(C)
            import :: c_int32_t, c_int64_t, c_size_t
            integer(c_int32_t), intent(inout) :: table(*)
            integer(c_size_t), value :: words
            integer(c_int32_t), value :: task
        end function

        integer(c_int64_t) function kavdrell_make(table, words, task) bind(C)
            import :: c_int32_t, c_int64_t, c_size_t
            integer(c_int32_t), intent(inout) :: table(*)
            integer(c_size_t), value :: words
            integer(c_int32_t), value :: task
        end function

        integer(c_int64_t) function kavdrell_swap(table, words, task, slot, old_block, new_block) bind(C)
            import :: c_int32_t, c_int64_t, c_size_t
            integer(c_int32_t), intent(inout) :: table(*)
            integer(c_size_t), value :: words
            integer(c_int32_t), value :: task, slot, old_block, new_block
        end function

        integer(c_int64_t) function kavdrell_retire(table, words, task, block) bind(C)
            import :: c_int32_t, c_int64_t, c_size_t
            integer(c_int32_t), intent(inout) :: table(*)
            integer(c_size_t), value :: words
            integer(c_int32_t), value :: task, block
        end function

        integer(c_int64_t) function kavdrell_sweep(table, words, task) bind(C)
            import :: c_int32_t, c_int64_t, c_size_t
            integer(c_int32_t), intent(inout) :: table(*)
            integer(c_size_t), value :: words
            integer(c_int32_t), value :: task
        end function

        integer(c_int64_t) function kavdrell_end(table, words, task) bind(C)
            import :: c_int32_t, c_int64_t, c_size_t
            integer(c_int32_t), intent(inout) :: table(*)
            integer(c_size_t), value :: words
            integer(c_int32_t), value :: task
        end function

        integer(c_int64_t) function kavdrell_tally(table, words, state) bind(C)
            import :: c_int32_t, c_int64_t, c_size_t
            integer(c_int32_t), intent(inout) :: table(*)
            integer(c_size_t), value :: words
            integer(c_int32_t), value :: state
        end function

        type(zone_minutes) function kavdrell_zone_hour(table, bytes, hour) bind(C)
            import :: c_int8_t, c_int32_t, c_size_t, zone_minutes
            integer(c_int8_t), intent(in) :: table(*)
            integer(c_size_t), value :: bytes
            integer(c_int32_t), value :: hour
        end function

        type(zone_minutes) function kavdrell_zone_block(room, bytes, block) bind(C)
            import :: c_int8_t, c_int32_t, c_size_t, zone_minutes
            integer(c_int8_t), intent(in) :: room(*)
            integer(c_size_t), value :: bytes
            integer(c_int32_t), value :: block
        end function

        integer(c_int32_t) function kavdrell_zone_write(minutes, buffer, bytes) bind(C)
            import :: c_int8_t, c_int32_t, c_size_t
            integer(c_int32_t), value :: minutes
            integer(c_int8_t), intent(inout) :: buffer(*)
            integer(c_size_t), value :: bytes
        end function

        type(zone_minutes) function kavdrell_zone_read(characters, bytes) bind(C)
            import :: c_int8_t, c_size_t, zone_minutes
            integer(c_int8_t), intent(in) :: characters(*)
            integer(c_size_t), value :: bytes
        end function

        type(written) function kavdrell_write_field(buffer, bytes, place, tag, numbers, count) bind(C)
            import :: c_int8_t, c_int32_t, c_size_t, written
            integer(c_int8_t), intent(inout) :: buffer(*)
            integer(c_size_t), value :: bytes, place, count
            integer(c_int8_t), value :: tag
            integer(c_int32_t), intent(in) :: numbers(*)
        end function
    end interface
end module

program header
    use, intrinsic :: iso_c_binding, only: c_int8_t, c_int32_t, c_int64_t, c_size_t
    use kavdrell
    implicit none

    integer :: passed = 0, failed = 0

    call steps()
    call zones()
    call fields()
    print '(i0, a, i0, a)', passed, ' passed, ', failed, ' failed'
    if (failed > 0) error stop

contains

    ! Counts what should hold.
    subroutine check(what, holds)
        character(*), intent(in) :: what
        logical, intent(in) :: holds

        if (holds) then
            passed = passed + 1
        else
            failed = failed + 1
            print '(2a)', 'FAILED: ', what
        end if
    end subroutine

    ! A step's answer has this kind and value, its upper and lower 32 bits.
    subroutine answers(step, answer, kind, value)
        character(*), intent(in) :: step
        integer(c_int64_t), intent(in) :: answer
        integer, intent(in) :: kind, value

        call check(step, ibits(answer, 32, 32) == kind .and. ibits(answer, 0, 32) == value)
    end subroutine

    ! A zone function's answer has this kind and these minutes.
    subroutine says(what, answer, kind, minutes)
        character(*), intent(in) :: what
        type(zone_minutes), intent(in) :: answer
        integer, intent(in) :: kind, minutes

        call check(what, answer%kind == kind .and. answer%minutes == minutes)
    end subroutine

    ! A write's answer has this kind and value.
    subroutine wrote(what, answer, kind, value)
        character(*), intent(in) :: what
        type(written), intent(in) :: answer
        integer, intent(in) :: kind, value

        call check(what, answer%kind == kind .and. answer%value == value)
    end subroutine

    ! The bytes of a text.
    pure function bytes_of(text) result(bytes)
        character(*), intent(in) :: text
        integer(c_int8_t) :: bytes(len(text))
        integer :: i

        bytes = [(int(iachar(text(i:i)), c_int8_t), i = 1, len(text))]
    end function

    ! Task 2 of three makes six of ten blocks, shows block 4 in slot 1 of two, reads it, retires the others and ends; the epoch rises at the
    ! fifth make.
    subroutine steps()
        integer(c_size_t), parameter :: words = 63
        integer, parameter :: others(5) = [1, 2, 3, 5, 6]
        integer(c_int32_t) :: table(words)
        integer :: i

        call answers('open', kavdrell_open(table=table, words=words, tasks=3, blocks=10, slots=2, makes_per_epoch=5, &
                                           retirements_per_sweep=4), 0, 63)
        call answers('start', kavdrell_start(table=table, words=words, task=2), 0, 0)
        do i = 1, 6
            call answers('make', kavdrell_make(table=table, words=words, task=2), 0, i)
        end do
        call answers('swap', kavdrell_swap(table=table, words=words, task=2, slot=1, old_block=0, new_block=4), 0, 1)
        call answers('retire of a named block', kavdrell_retire(table=table, words=words, task=2, block=4), 8, 0)
        call answers('look', kavdrell_look(table=table, words=words, task=2, slot=1), 0, 0)
        call answers('settle', kavdrell_settle(table=table, words=words, task=2), 11, 0)
        call answers('look', kavdrell_look(table=table, words=words, task=2, slot=1), 0, 0)
        call answers('settle', kavdrell_settle(table=table, words=words, task=2), 0, 4)
        call answers('tally of made', kavdrell_tally(table=table, words=words, state=1), 0, 5)
        call answers('end', kavdrell_end(table=table, words=words, task=2), 12, 0)
        do i = 1, 5
            call answers('retire', kavdrell_retire(table=table, words=words, task=2, block=others(i)), 0, 0)
        end do
        call answers('end', kavdrell_end(table=table, words=words, task=2), 0, 0)
        call answers('sweep', kavdrell_sweep(table=table, words=words, task=2), 0, 5)
        call answers('tally of free', kavdrell_tally(table=table, words=words, state=0), 0, 9)
        call check('the first words', all(table(1:6) == [3, 10, 2, 5, 4, 1]))
    end subroutine

    ! A store of three records, of -210, 901 and 345 minutes, as a room and as the first hours of a table; and characters both ways.
    subroutine zones()
        integer(c_size_t), parameter :: bytes = 24
        integer(c_int8_t) :: store(bytes), buffer(5)

        store = [[-1_c_int8_t, 46_c_int8_t], bytes_of('I-0330'), [3_c_int8_t, -123_c_int8_t], bytes_of('FAROFF'), &
                 [1_c_int8_t, 89_c_int8_t], bytes_of('N+0545')]
        call says('block 1', kavdrell_zone_block(room=store, bytes=bytes, block=1), 0, -210)
        call says('block 2', kavdrell_zone_block(room=store, bytes=bytes, block=2), 30, 0)
        call says('block 4', kavdrell_zone_block(room=store, bytes=bytes, block=4), 31, 0)
        call says('hour -13', kavdrell_zone_hour(table=store, bytes=bytes, hour=-13), 0, 345)
        call says('hour 16', kavdrell_zone_hour(table=store, bytes=bytes, hour=16), 31, 0)
        buffer = bytes_of('?????')
        call check('zone_write', kavdrell_zone_write(minutes=-210, buffer=buffer, bytes=5_c_size_t) == 0)
        call check('zone_write of four bytes', kavdrell_zone_write(minutes=-30, buffer=buffer, bytes=4_c_size_t) == 33)
        call check('the characters', all(buffer == bytes_of('-0330')))
        call says('zone_read', kavdrell_zone_read(characters=bytes_of('-0330'), bytes=5_c_size_t), 0, -210)
        call says('zone_read of -0000', kavdrell_zone_read(characters=bytes_of('-0000'), bytes=5_c_size_t), 32, 0)
    end subroutine

    ! A look of two numbers at place 3 of 20 bytes, and one that has no room.
    subroutine fields()
        integer(c_int32_t), parameter :: numbers(2) = [16909060, 5]
        integer, parameter :: due(20) = [9, 9, 9, 3, 0, 8, 1, 2, 3, 4, 0, 0, 0, 5, 9, 9, 9, 9, 9, 9]
        integer(c_int8_t) :: buffer(20)

        buffer = 9
        call wrote('write_field', kavdrell_write_field(buffer=buffer, bytes=20_c_size_t, place=3_c_size_t, tag=3_c_int8_t, &
                                                       numbers=numbers, count=2_c_size_t), 0, 14)
        call wrote('write_field at 10', kavdrell_write_field(buffer=buffer, bytes=20_c_size_t, place=10_c_size_t, tag=3_c_int8_t, &
                                                             numbers=numbers, count=2_c_size_t), 25, 0)
        call check('its bytes', all(buffer == due))
    end subroutine
end program
