! The night of +210 from Fortran. A slow logger task holds the record -210 while the desk shows the next one, +210. What a task reads goes into the fourth place of a VALUES
! array, as DATE_AND_TIME has it, and from there into the ZONE characters. It prints what the program `zone_night` prints. A number after its name is F, the makes per epoch,
! 2 where none is given: with 1 the logger is told to look again.
program zone_night
  use, intrinsic :: iso_c_binding, only: c_char, c_int8_t, c_int32_t, c_int64_t, c_size_t
  use, intrinsic :: iso_fortran_env, only: error_unit
  implicit none

  integer(c_int32_t), parameter :: tasks = 2, blocks = 4, slots = 1, logger = 0, desk = 1, slot = 0
  ! The kinds that the night goes on after; any other ends it.
  integer(c_int32_t), parameter :: done = 0, look_again = 11, no_record = 31
  integer(c_size_t), parameter :: words = 6 + 5 * tasks + 4 * blocks + slots
  ! Eight bytes for each block.
  integer(c_size_t), parameter :: bytes = 8 * blocks
  ! A record: its minutes, signed, in two bytes, the most significant first, and six bytes of name. A byte is signed too: -46 is 210 less 256.
  integer(c_int8_t), parameter :: minus_210(8) = int([-1, 46, iachar(['N', '-', '0', '3', '3', '0'])], c_int8_t)
  integer(c_int8_t), parameter :: plus_210(8) = int([0, -46, iachar(['I', '+', '0', '3', '3', '0'])], c_int8_t)
  integer(c_int32_t) :: table(words) = 0
  integer(c_int8_t) :: room(bytes) = 0
  integer(c_int32_t) :: values(8) = 0
  integer(c_int32_t) :: first, next, held, again

  ! What a zone function that reads answers: the kind, and the minutes where it is 0.
  type, bind(C) :: zone_minutes
    integer(c_int32_t) :: kind
    integer(c_int32_t) :: minutes
  end type

  interface
    function kavdrell_open(table, words, t, n, p, f, e) bind(C) result(answer)
      import :: c_int32_t, c_int64_t, c_size_t
      integer(c_int32_t), intent(inout) :: table(*)
      integer(c_size_t), value :: words
      integer(c_int32_t), value :: t, n, p, f, e
      integer(c_int64_t) :: answer
    end function
    function kavdrell_start(table, words, task) bind(C) result(answer)
      import :: c_int32_t, c_int64_t, c_size_t
      integer(c_int32_t), intent(inout) :: table(*)
      integer(c_size_t), value :: words
      integer(c_int32_t), value :: task
      integer(c_int64_t) :: answer
    end function
    function kavdrell_look(table, words, task, slot) bind(C) result(answer)
      import :: c_int32_t, c_int64_t, c_size_t
      integer(c_int32_t), intent(inout) :: table(*)
      integer(c_size_t), value :: words
      integer(c_int32_t), value :: task, slot
      integer(c_int64_t) :: answer
    end function
    function kavdrell_settle(table, words, task) bind(C) result(answer)
      import :: c_int32_t, c_int64_t, c_size_t
      integer(c_int32_t), intent(inout) :: table(*)
      integer(c_size_t), value :: words
      integer(c_int32_t), value :: task
      integer(c_int64_t) :: answer
    end function
    function kavdrell_make(table, words, task) bind(C) result(answer)
      import :: c_int32_t, c_int64_t, c_size_t
      integer(c_int32_t), intent(inout) :: table(*)
      integer(c_size_t), value :: words
      integer(c_int32_t), value :: task
      integer(c_int64_t) :: answer
    end function
    function kavdrell_swap(table, words, task, slot, old, new) bind(C) result(answer)
      import :: c_int32_t, c_int64_t, c_size_t
      integer(c_int32_t), intent(inout) :: table(*)
      integer(c_size_t), value :: words
      integer(c_int32_t), value :: task, slot, old, new
      integer(c_int64_t) :: answer
    end function
    function kavdrell_retire(table, words, task, block) bind(C) result(answer)
      import :: c_int32_t, c_int64_t, c_size_t
      integer(c_int32_t), intent(inout) :: table(*)
      integer(c_size_t), value :: words
      integer(c_int32_t), value :: task, block
      integer(c_int64_t) :: answer
    end function
    function kavdrell_sweep(table, words, task) bind(C) result(answer)
      import :: c_int32_t, c_int64_t, c_size_t
      integer(c_int32_t), intent(inout) :: table(*)
      integer(c_size_t), value :: words
      integer(c_int32_t), value :: task
      integer(c_int64_t) :: answer
    end function
    function kavdrell_end(table, words, task) bind(C) result(answer)
      import :: c_int32_t, c_int64_t, c_size_t
      integer(c_int32_t), intent(inout) :: table(*)
      integer(c_size_t), value :: words
      integer(c_int32_t), value :: task
      integer(c_int64_t) :: answer
    end function
    function kavdrell_zone_block(room, length, block) bind(C) result(answer)
      import :: c_int8_t, c_int32_t, c_size_t, zone_minutes
      integer(c_int8_t), intent(in) :: room(*)
      integer(c_size_t), value :: length
      integer(c_int32_t), value :: block
      type(zone_minutes) :: answer
    end function
    function kavdrell_zone_write(minutes, buffer, length) bind(C) result(kind)
      import :: c_int32_t, c_size_t, c_char
      integer(c_int32_t), value :: minutes
      character(kind=c_char), intent(inout) :: buffer(*)
      integer(c_size_t), value :: length
      integer(c_int32_t) :: kind
    end function
  end interface

  call must('open', kavdrell_open(table, words, tasks, blocks, slots, makes_per_epoch(), 1))
  call must('start', kavdrell_start(table, words, desk))
  call must('start', kavdrell_start(table, words, logger))
  first = show(0, minus_210)
  held = take()
  call tell('the logger reads ', held)
  next = show(first, plus_210)
  call say('the desk retires its first block, blocks freed: ', value_of('retire', kavdrell_retire(table, words, desk, first)))
  call tell('the desk reads ', next)
  call finish(desk)
  call say('the desk sweeps, blocks freed: ', value_of('sweep', kavdrell_sweep(table, words, desk)))
  call tell('the slow logger still reads ', held)
  call finish(logger)
  call say('the desk sweeps, blocks freed: ', value_of('sweep', kavdrell_sweep(table, words, desk)))
  call must('start', kavdrell_start(table, words, desk))
  again = show(next, plus_210)
  call tell('its room, reused only now, reads ', again)

contains

  ! F: the number after the program's name, or 2. Whether a table may have it is open's to say.
  integer(c_int32_t) function makes_per_epoch()
    character(20) :: argument
    integer :: status
    makes_per_epoch = 2
    if (command_argument_count() == 0) return
    call get_command_argument(1, argument, status=status)
    if (status == 0) read (argument, '(i20)', iostat=status) makes_per_epoch
    if (status /= 0) call give_up("F isn't a number")
  end function

  ! Ends the program.
  subroutine give_up(why)
    character(*), intent(in) :: why
    write (error_unit, '(2a)') 'zone_night: ', why
    flush (error_unit)
    stop 1
  end subroutine

  ! Ends the program where the kind that a call answered isn't 0: what else it answered says nothing.
  subroutine check(call_name, kind)
    character(*), intent(in) :: call_name
    integer(c_int32_t), intent(in) :: kind
    character(12) :: digits
    write (digits, '(i0)') kind
    if (kind /= done) call give_up(call_name // ' answers kind ' // trim(digits))
  end subroutine

  ! The kind of an answer: its high 32 bits.
  integer(c_int32_t) function kind_of(answer)
    integer(c_int64_t), intent(in) :: answer
    kind_of = int(ibits(answer, 32, 32), c_int32_t)
  end function

  ! A step that has to be done, and has no value that is asked for.
  subroutine must(step, answer)
    character(*), intent(in) :: step
    integer(c_int64_t), intent(in) :: answer
    call check(step, kind_of(answer))
  end subroutine

  ! The value of a step that has to be done: the answer's low 32 bits. No value asked for here is above the number of blocks.
  integer(c_int32_t) function value_of(step, answer)
    character(*), intent(in) :: step
    integer(c_int64_t), intent(in) :: answer
    call check(step, kind_of(answer))
    value_of = int(ibits(answer, 0, 32), c_int32_t)
  end function

  ! The desk makes a block, one of 1 to `blocks`, writes the record into its room, and shows it in the slot in place of the old one. A swap
  ! that answers 0 changed nothing.
  integer(c_int32_t) function show(old, record)
    integer(c_int32_t), intent(in) :: old
    integer(c_int8_t), intent(in) :: record(8)
    show = value_of('make', kavdrell_make(table, words, desk))
    room(8 * show - 7 : 8 * show) = record
    if (value_of('swap', kavdrell_swap(table, words, desk, slot, old, show)) /= 1) call give_up('the slot holds another block')
    call say('the desk shows block ', show)
  end function

  ! The logger looks and settles, round again at each 'look again', until it is handed the block that it saw, or 0 for an empty slot. It
  ! holds that block until it ends.
  integer(c_int32_t) function take()
    integer(c_int64_t) :: answer
    do
      call must('look', kavdrell_look(table, words, logger, slot))
      answer = kavdrell_settle(table, words, logger)
      if (kind_of(answer) /= look_again) exit
      print '(a)', 'the logger has to look again'
    end do
    take = value_of('settle', answer)
    call say('the logger settles on block ', take)
  end function

  ! A task ends its operation.
  subroutine finish(task)
    integer(c_int32_t), intent(in) :: task
    call must('end', kavdrell_end(table, words, task))
    call say('an operation ends, of task ', task)
  end subroutine

  ! One line: words, and a number.
  subroutine say(words, number)
    character(*), intent(in) :: words
    integer(c_int32_t), intent(in) :: number
    print '(a, i0)', words, number
  end subroutine

  ! One line: who reads, the ZONE characters of the block's record and its name; or that there is no record, as for block 0. Only a block that
  ! has a record is a place in the room.
  subroutine tell(who, block)
    character(*), intent(in) :: who
    integer(c_int32_t), intent(in) :: block
    character(kind=c_char) :: zone(5)
    character(6) :: name
    type(zone_minutes) :: answer
    answer = kavdrell_zone_block(room, bytes, block)
    if (answer%kind == no_record) then
      print '(2a)', who, 'no record'
      return
    end if
    call check('zone_block', answer%kind)
    values(4) = answer%minutes
    call check('zone_write', kavdrell_zone_write(values(4), zone, size(zone, kind=c_size_t)))
    name = transfer(room(8 * block - 5 : 8 * block), name)
    print '(8a)', who, zone, ' ', name
  end subroutine
end program
