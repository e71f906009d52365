! The calls of the archive: a table is an array and its length in words.
module kavdrell
    use, intrinsic :: iso_c_binding, only: c_int32_t, c_int64_t, c_size_t
    implicit none

    interface
        integer(c_int64_t) function kavdrell_open(table, words, t, n, p, f, e) bind(C)
            import :: c_int32_t, c_int64_t, c_size_t
            integer(c_int32_t), intent(inout) :: table(*)
            integer(c_size_t), value :: words
            integer(c_int32_t), value :: t, n, p, f, e
        end function

        integer(c_int64_t) function kavdrell_start(table, words, task) bind(C)
            import :: c_int32_t, c_int64_t, c_size_t
            integer(c_int32_t), intent(inout) :: table(*)
            integer(c_size_t), value :: words
            integer(c_int32_t), value :: task
        end function

        integer(c_int64_t) function kavdrell_look(table, words, task, slot) bind(C)
            import :: c_int32_t, c_int64_t, c_size_t
            integer(c_int32_t), intent(inout) :: table(*)
            integer(c_size_t), value :: words
            integer(c_int32_t), value :: task, slot
        end function

        integer(c_int64_t) function kavdrell_settle(table, words, task) bind(C)
            import :: c_int32_t, c_int64_t, c_size_t
            integer(c_int32_t), intent(inout) :: table(*)
            integer(c_size_t), value :: words
            integer(c_int32_t), value :: task
        end function

        integer(c_int64_t) function kavdrell_make(table, words, task) bind(C)
            import :: c_int32_t, c_int64_t, c_size_t
            integer(c_int32_t), intent(inout) :: table(*)
            integer(c_size_t), value :: words
            integer(c_int32_t), value :: task
        end function

        integer(c_int64_t) function kavdrell_swap(table, words, task, slot, old, new) bind(C)
            import :: c_int32_t, c_int64_t, c_size_t
            integer(c_int32_t), intent(inout) :: table(*)
            integer(c_size_t), value :: words
            integer(c_int32_t), value :: task, slot, old, new
        end function

        integer(c_int64_t) function kavdrell_retire(table, words, task, block) bind(C)
            import :: c_int32_t, c_int64_t, c_size_t
            integer(c_int32_t), intent(inout) :: table(*)
            integer(c_size_t), value :: words
            integer(c_int32_t), value :: task, block
        end function

        integer(c_int64_t) function kavdrell_sweep(table, words, task) bind(C)
            import :: c_int32_t, c_int64_t, c_size_t
            integer(c_int32_t), intent(inout) :: table(*)
            integer(c_size_t), value :: words
            integer(c_int32_t), value :: task
        end function

        integer(c_int64_t) function kavdrell_end(table, words, task) bind(C)
            import :: c_int32_t, c_int64_t, c_size_t
            integer(c_int32_t), intent(inout) :: table(*)
            integer(c_size_t), value :: words
            integer(c_int32_t), value :: task
        end function
    end interface
end module

! The night with one reader: task 0 reads slot 0 while task 1 writes it. Prints what each call answers.
program night
    use, intrinsic :: iso_c_binding, only: c_int32_t, c_int64_t, c_size_t
    use, intrinsic :: iso_fortran_env, only: error_unit
    use kavdrell
    implicit none

    integer(c_int32_t), parameter :: tasks = 2, blocks = 4, slots = 1, reader = 0, writer = 1, slot = 0
    integer(c_size_t), parameter :: words = 6 + 5 * tasks + 4 * blocks + slots
    ! The two kinds that the night has: the step is done; settle: look again.
    integer(c_int32_t), parameter :: done = 0, look_again = 11
    integer(c_int32_t) :: table(words), block, held
    integer :: number = 0

    print '(a)', 'step tag kind value'
    call step(1, done, kavdrell_open(table, words, tasks, blocks, slots, 2, 1))
    call step(2, done, kavdrell_start(table, words, reader))
    call step(2, done, kavdrell_start(table, words, writer))
    call step(5, done, kavdrell_make(table, words, writer))
    call step(5, done, kavdrell_make(table, words, writer), block)
    call put(0, block)
    ! The read's first round stands apart from its loop, for in this night the writer steps in after it.
    call step(3, done, kavdrell_look(table, words, reader, slot))
    call step(4, look_again, kavdrell_settle(table, words, reader))
    call put(block, 0)
    call step(7, done, kavdrell_retire(table, words, writer, block))
    call read_slot(held)
    call step(9, done, kavdrell_end(table, words, reader))
    call step(8, done, kavdrell_sweep(table, words, writer))
    call step(5, done, kavdrell_make(table, words, writer))

contains

    ! The kind of an answer, its upper 32 bits.
    integer(c_int32_t) function kind_of(answer)
        integer(c_int64_t), intent(in) :: answer

        kind_of = int(ibits(answer, 32, 32), c_int32_t)
    end function

    ! Prints the next line of the night: step number, tag (open 1, start 2, look 3, settle 4, make 5, swap 6, retire 7, sweep 8,
    ! end 9), then the answer's kind and value, its upper and lower 32 bits; and gives the value. Where the kind isn't the one
    ! that is due, the value says nothing, and the program ends.
    subroutine step(tag, due, answer, value)
        integer, intent(in) :: tag
        integer(c_int32_t), intent(in) :: due
        integer(c_int64_t), intent(in) :: answer
        integer(c_int32_t), intent(out), optional :: value

        number = number + 1
        if (kind_of(answer) /= due) then
            write (error_unit, '(3(a, i0), a)') 'night: step ', number, ' answers kind ', kind_of(answer), ' where ', due, ' is due'
            flush (error_unit)
            stop 1
        end if
        print '(i0, 3(1x, i0))', number, tag, kind_of(answer), ibits(answer, 0, 32)
        if (present(value)) value = int(ibits(answer, 0, 32), c_int32_t)
    end subroutine

    ! The writer puts a block in the place of the one that the slot holds; 0 is none. A swap that answers 0 changed nothing: the
    ! program ends.
    subroutine put(old, new)
        integer(c_int32_t), intent(in) :: old, new
        integer(c_int32_t) :: swapped

        call step(6, done, kavdrell_swap(table, words, writer, slot, old, new), swapped)
        if (swapped /= 1) then
            write (error_unit, '(a, i0)') "night: the slot doesn't hold block ", old
            flush (error_unit)
            stop 1
        end if
    end subroutine

    ! The reader looks and settles, round again at each 'look again', until it is handed the block that it saw, or 0 for an empty
    ! slot. The block is safe until the reader ends. Any other kind ends the program.
    subroutine read_slot(held)
        integer(c_int32_t), intent(out) :: held
        integer(c_int64_t) :: answer

        do
            call step(3, done, kavdrell_look(table, words, reader, slot))
            answer = kavdrell_settle(table, words, reader)
            if (kind_of(answer) /= look_again) exit
            call step(4, look_again, answer)
        end do
        call step(4, done, answer, held)
    end subroutine
end program
