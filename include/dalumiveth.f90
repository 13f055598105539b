! Dalumiveth for Fortran 2003: sparse Gaussian elimination with row interchanges, in storage slots that are counted beforehand
! from the pattern alone.
!
!   Counting   Rows, columns, steps and members of a tally count from 1. What the stores hold counts places from 0, as in the papers
!              and in C: a row start 0 means the first column number, which is columns(1) here.
!   Rows       A pattern has n columns and n rows or more, up to 2,048: its row count, `height` in names. With n rows it is a square, and
!              its systems can be solved; with more it is tall, and is run only when cut, steps=n at most.
!   Kinds      Numbers are integer(dlm_size) (C's size_t; every legal one is small), reals are real(dlm_real) (C's double).
!   Stores     Allocatable. The caller allocates those of the pattern; dlm_make_plan (also one that refuses) and the runs give the others
!              the lengths that they need, and so does dlm_make_load those of a load. A run wants a plan dlm_make_plan has seen.
!   Refusals   answer%refusal is 0, or the number of a refusal: then all results are zero, and dlm_sentence has its sentence. A tally
!              then stays as it was.
!   Proved     The functions dalumiveth_*, which the library exports, for all inputs. The procedures dlm_* of this module put types
!              around them; they are not proved.
!
! The short way: fill pattern%n, pattern%starts, pattern%columns; then
!
!   answer = dlm_make_plan(pattern, plan, work)
!   answer = dlm_run_largest(pattern, plan, values, right, factor, work)                  the solution is factor%x
!
! For a tall pattern fill pattern%height too, and cut the run: with steps=n the first n rows are then triangular, factor%d and factor%u, with
! factor%x(1:n) as their right side, and factor%x(n+1:) is the misfit of the rows that served as no pivot.
!
! Or take a test load that a seed names: dlm_make_load(seed, n, d, load) makes load%pattern, load%values and load%right.
module dalumiveth
  use, intrinsic :: iso_c_binding, only: c_size_t, c_double, c_int32_t, c_int8_t, c_char
  implicit none
  private
  public :: dlm_make_plan, dlm_verify_plan, dlm_run_largest, dlm_run_listed, dlm_tally_add, dlm_read_offset, dlm_write_offset
  public :: dlm_make_load, dlm_sentence
  public :: dalumiveth_plan, dalumiveth_verify, dalumiveth_run, dalumiveth_tally_add, dalumiveth_job
  public :: dalumiveth_read_offset, dalumiveth_write_offset, dalumiveth_load

  integer, parameter, public :: dlm_size = c_size_t, dlm_real = c_double
  integer, parameter, public :: dlm_members = 16                                  ! of a tally: their numbers are 1 to 16
  integer, parameter, public :: dlm_offset_bytes = 14                             ! of an offset's text
  integer(dlm_size), parameter, public :: dlm_most_offset = 1295999999_dlm_size   ! milliarcseconds: +359 59 59.999
  integer, parameter, public :: dlm_counts = 8                                    ! numbers that a plan counts
  integer(dlm_size), parameter :: most_n = 1024, most_height = 2048, most_entries = 16384
  integer(dlm_size), parameter :: not_named = -1                                  ! a row count: then it is n

  ! Where entries may stand, row after row.
  type, public :: dlm_pattern
    integer(dlm_size) :: n = 0                         ! columns, 1 to 1,024
    integer(dlm_size) :: height = not_named            ! rows, n to 2,048; a square may leave it as it is
    integer(dlm_size), allocatable :: starts(:)        ! one more than the rows: the first is 0, the last the number of entries
    integer(dlm_size), allocatable :: columns(:)       ! column numbers from 1, strictly ascending in a row, in the first n rows the
                                                       ! diagonal among them; a row above n may be empty
  end type

  ! A plan. The list of step k on a side has slots(k+1) - slots(k) members, from subs(starts(k) + 1) on.
  type, public :: dlm_plan
    integer(dlm_size) :: counts(dlm_counts) = 0        ! n, rows, entries, L and U subscripts, L and U slots, reads
    integer(dlm_size), allocatable :: l_subs(:), l_starts(:), l_slots(:)   ! counts(4), n, n+1
    integer(dlm_size), allocatable :: u_subs(:), u_starts(:), u_slots(:)   ! counts(5), n, n+1
  end type

  ! Room that calls work in; zeros after each.
  type, public :: dlm_work
    integer(dlm_size), allocatable :: row_heads(:), row_links(:), set_heads(:), set_links(:)   ! one more than the rows, each
    integer(dlm_size), allocatable :: list(:), spare(:)                                        ! as many as rows, each
    real(dlm_real), allocatable :: copy(:), dense(:)                                           ! as many as rows, and one more
  end type

  ! What a run leaves. After a cut run x is the right side as it then is.
  type, public :: dlm_factor
    real(dlm_real), allocatable :: l(:), u(:)          ! the planned slots: multipliers, and the rows of U beyond the diagonal
    real(dlm_real), allocatable :: d(:)                ! n: the diagonal
    real(dlm_real), allocatable :: x(:)                ! as many as rows: the solution
    integer(dlm_size), allocatable :: pivots(:)        ! n: the pivot row of each step done, then 0
    integer(dlm_size) :: updates = 0                   ! subtractions in the matrix
  end type

  type, public :: dlm_answer
    integer(dlm_size) :: refusal = 0                   ! 0: none
    integer(dlm_size) :: step = 0                      ! with 7, 8, 13 and 14
  end type

  ! A tally that stays with the caller: a sum of updates for each member, 0 to 4,294,967,295. One that was saved goes on with its sums here.
  type, public :: dlm_tally
    integer(dlm_size) :: counters(dlm_members) = 0     ! member m's is counters(m)
  end type

  ! An offset, read or written: whole milliarcseconds.
  type, public :: dlm_offset
    integer(dlm_size) :: refusal = 0                   ! 0: none
    integer(dlm_size) :: whole = 0                     ! -dlm_most_offset to dlm_most_offset; 0 after a refusal
    real(dlm_real) :: value = 0                        ! the real equal to `whole`; never -0
  end type

  ! A test load: a pattern, its values and a right side that a seed names; whole numbers from -1,000 to 1,000.
  type, public :: dlm_load
    type(dlm_pattern) :: pattern                       ! its n is 0 after a refusal, which no call takes
    real(dlm_real), allocatable :: values(:), right(:) ! one for each of pattern%columns, and n
  end type

  ! The exported functions. Each store is followed by its length; `answer` receives number, step and values.
  interface
    function dalumiveth_plan(most, n, height, starts, starts_length, columns, columns_length, &
        l_subs, l_subs_length, l_starts, l_starts_length, l_slots, l_slots_length, &
        u_subs, u_subs_length, u_starts, u_starts_length, u_slots, u_slots_length, &
        row_heads, row_heads_length, row_links, row_links_length, set_heads, set_heads_length, set_links, set_links_length, &
        list, list_length, spare, spare_length, answer, answer_length) result(number) bind(c)
      import :: c_size_t
      integer(c_size_t), value :: most, n, height, starts_length, columns_length
      integer(c_size_t), value :: l_subs_length, l_starts_length, l_slots_length, u_subs_length, u_starts_length, u_slots_length
      integer(c_size_t), value :: row_heads_length, row_links_length, set_heads_length, set_links_length, list_length, spare_length
      integer(c_size_t), value :: answer_length
      integer(c_size_t), intent(in) :: starts(*), columns(*)
      integer(c_size_t), intent(inout) :: l_subs(*), l_starts(*), l_slots(*), u_subs(*), u_starts(*), u_slots(*)
      integer(c_size_t), intent(inout) :: row_heads(*), row_links(*), set_heads(*), set_links(*), list(*), spare(*), answer(*)
      integer(c_size_t) :: number
    end function

    function dalumiveth_verify(most, n, height, starts, starts_length, columns, columns_length, counts, counts_length, &
        l_subs, l_subs_length, l_starts, l_starts_length, l_slots, l_slots_length, &
        u_subs, u_subs_length, u_starts, u_starts_length, u_slots, u_slots_length, &
        row_heads, row_heads_length, row_links, row_links_length, set_heads, set_heads_length, set_links, set_links_length, &
        list, list_length, spare, spare_length, answer, answer_length) result(number) bind(c)
      import :: c_size_t
      integer(c_size_t), value :: most, n, height, starts_length, columns_length, counts_length
      integer(c_size_t), value :: l_subs_length, l_starts_length, l_slots_length, u_subs_length, u_starts_length, u_slots_length
      integer(c_size_t), value :: row_heads_length, row_links_length, set_heads_length, set_links_length, list_length, spare_length
      integer(c_size_t), value :: answer_length
      integer(c_size_t), intent(in) :: starts(*), columns(*), counts(*)
      integer(c_size_t), intent(in) :: l_subs(*), l_starts(*), l_slots(*), u_subs(*), u_starts(*), u_slots(*)
      integer(c_size_t), intent(inout) :: row_heads(*), row_links(*), set_heads(*), set_links(*), list(*), spare(*), answer(*)
      integer(c_size_t) :: number
    end function

    ! by_list 0: by the largest entry, and rows is not read; cut 0: a whole run, and steps is not read.
    function dalumiveth_run(most, n, height, starts, starts_length, columns, columns_length, counts, counts_length, &
        l_subs, l_subs_length, l_starts, l_starts_length, l_slots, l_slots_length, &
        u_subs, u_subs_length, u_starts, u_starts_length, u_slots, u_slots_length, &
        values, values_length, right, right_length, by_list, rows, rows_length, cut, steps, &
        l, l_length, u, u_length, d, d_length, x, x_length, pivots, pivots_length, &
        row_heads, row_heads_length, row_links, row_links_length, set_heads, set_heads_length, set_links, set_links_length, &
        list, list_length, spare, spare_length, copy, copy_length, dense, dense_length, answer, answer_length) &
        result(number) bind(c)
      import :: c_size_t, c_double
      integer(c_size_t), value :: most, n, height, starts_length, columns_length, counts_length
      integer(c_size_t), value :: l_subs_length, l_starts_length, l_slots_length, u_subs_length, u_starts_length, u_slots_length
      integer(c_size_t), value :: values_length, right_length, by_list, rows_length, cut, steps
      integer(c_size_t), value :: l_length, u_length, d_length, x_length, pivots_length
      integer(c_size_t), value :: row_heads_length, row_links_length, set_heads_length, set_links_length, list_length, spare_length
      integer(c_size_t), value :: copy_length, dense_length, answer_length
      integer(c_size_t), intent(in) :: starts(*), columns(*), counts(*), rows(*)
      integer(c_size_t), intent(in) :: l_subs(*), l_starts(*), l_slots(*), u_subs(*), u_starts(*), u_slots(*)
      real(c_double), intent(in) :: values(*), right(*)
      real(c_double), intent(inout) :: l(*), u(*), d(*), x(*), copy(*), dense(*)
      integer(c_size_t), intent(inout) :: pivots(*), answer(*)
      integer(c_size_t), intent(inout) :: row_heads(*), row_links(*), set_heads(*), set_links(*), list(*), spare(*)
      integer(c_size_t) :: number
    end function

    ! `counters` has 16 places, else 6, each with the bits of an unsigned number of 32 bits; answer(3) is the member's new sum.
    function dalumiveth_tally_add(counters, counters_length, member, updates, answer, answer_length) result(number) bind(c)
      import :: c_size_t, c_int32_t
      integer(c_size_t), value :: counters_length, member, updates, answer_length
      integer(c_int32_t), intent(inout) :: counters(*)
      integer(c_size_t), intent(inout) :: answer(*)
      integer(c_size_t) :: number
    end function

    ! Bytes to bytes: `out` has 8,192 places, room for every answer, else 6. In `answer`: number, step, how many bytes are printed.
    function dalumiveth_job(job, job_length, out, out_length, answer, answer_length) result(number) bind(c)
      import :: c_size_t, c_int8_t
      integer(c_size_t), value :: job_length, out_length, answer_length
      integer(c_int8_t), intent(in) :: job(*)
      integer(c_int8_t), intent(inout) :: out(*)
      integer(c_size_t), intent(inout) :: answer(*)
      integer(c_size_t) :: number
    end function

    ! `value` has one place, else 6; any other text than an offset's 14 bytes is 28. In `answer`: number, step 0, 1 where the whole
    ! number is below zero (else 0), its size.
    function dalumiveth_read_offset(text, text_length, value, value_length, answer, answer_length) result(number) bind(c)
      import :: c_size_t, c_double, c_char
      integer(c_size_t), value :: text_length, value_length, answer_length
      character(kind=c_char), intent(in) :: text(*)
      real(c_double), intent(inout) :: value(*)
      integer(c_size_t), intent(inout) :: answer(*)
      integer(c_size_t) :: number
    end function

    ! `out` has 14 places, else 6; a value that is not finite or rounds beyond the largest is 29. In `answer`: as for reading.
    function dalumiveth_write_offset(value, out, out_length, answer, answer_length) result(number) bind(c)
      import :: c_size_t, c_double, c_char
      real(c_double), value :: value
      integer(c_size_t), value :: out_length, answer_length
      character(kind=c_char), intent(inout) :: out(*)
      integer(c_size_t), intent(inout) :: answer(*)
      integer(c_size_t) :: number
    end function

    ! `seed` has the bits of an unsigned number of 32 bits. `starts` has n+1 places, `columns` and `values` 16,384 each, `right` n,
    ! else 6. In `answer`: number (0, 1, 23 or 6), step 0, how many entries there are.
    function dalumiveth_load(seed, n, d, starts, starts_length, columns, columns_length, values, values_length, &
        right, right_length, answer, answer_length) result(number) bind(c)
      import :: c_size_t, c_double, c_int32_t
      integer(c_int32_t), value :: seed
      integer(c_size_t), value :: n, d, starts_length, columns_length, values_length, right_length, answer_length
      integer(c_size_t), intent(inout) :: starts(*), columns(*), answer(*)
      real(c_double), intent(inout) :: values(*), right(*)
      integer(c_size_t) :: number
    end function
  end interface

contains

  ! Makes the plan of a pattern; plan and work are given their lengths here. Refuses with 1, 25 and 2 to 6. 7 and 8 cannot come about:
  ! n(n-1)/2 subscripts a side, and in L n more for each row above n, are always enough (proved), and what is not used is given back.
  function dlm_make_plan(pattern, plan, work) result(answer)
    type(dlm_pattern), intent(in) :: pattern
    type(dlm_plan), intent(inout) :: plan
    type(dlm_work), intent(inout) :: work
    type(dlm_answer) :: answer
    integer(dlm_size) :: n, rows, numbers(2 + dlm_counts), number
    n = columns_lent(pattern)
    rows = rows_lent(pattern)
    call make_plan_stores(plan, n, rows)
    call make_work(work, rows)
    number = dalumiveth_plan(most_n, pattern%n, height_of(pattern), pattern%starts, size(pattern%starts, kind=dlm_size), &
        pattern%columns, size(pattern%columns, kind=dlm_size), plan%l_subs, size(plan%l_subs, kind=dlm_size), &
        plan%l_starts, n, plan%l_slots, n + 1, plan%u_subs, size(plan%u_subs, kind=dlm_size), plan%u_starts, n, &
        plan%u_slots, n + 1, work%row_heads, rows + 1, work%row_links, rows + 1, work%set_heads, rows + 1, &
        work%set_links, rows + 1, work%list, rows, work%spare, rows, numbers, size(numbers, kind=dlm_size))
    answer = dlm_answer(number, numbers(2))
    plan%counts = numbers(3:)
    plan%l_subs = plan%l_subs(1:plan%counts(4))
    plan%u_subs = plan%u_subs(1:plan%counts(5))
  end function

  ! Says whether a plan, made here or elsewhere, is this pattern's: 0, 1, 25, 2 to 6 or 9. A plan kept from before subscripts were shared with the end of the
  ! whole store (document 02, ticket 5) is 9 where its lists lie otherwise: plan anew.
  function dlm_verify_plan(pattern, plan, work) result(answer)
    type(dlm_pattern), intent(in) :: pattern
    type(dlm_plan), intent(in) :: plan
    type(dlm_work), intent(inout) :: work
    type(dlm_answer) :: answer
    integer(dlm_size) :: rows, numbers(2), number
    rows = rows_lent(pattern)
    call make_work(work, rows)
    number = dalumiveth_verify(most_n, pattern%n, height_of(pattern), pattern%starts, size(pattern%starts, kind=dlm_size), &
        pattern%columns, size(pattern%columns, kind=dlm_size), plan%counts, size(plan%counts, kind=dlm_size), &
        plan%l_subs, size(plan%l_subs, kind=dlm_size), plan%l_starts, size(plan%l_starts, kind=dlm_size), &
        plan%l_slots, size(plan%l_slots, kind=dlm_size), plan%u_subs, size(plan%u_subs, kind=dlm_size), &
        plan%u_starts, size(plan%u_starts, kind=dlm_size), plan%u_slots, size(plan%u_slots, kind=dlm_size), &
        work%row_heads, rows + 1, work%row_links, rows + 1, work%set_heads, rows + 1, work%set_links, rows + 1, &
        work%list, rows, work%spare, rows, numbers, 2_dlm_size)
    answer = dlm_answer(number, numbers(2))
  end function

  ! A run, by the largest entry or by the list: the part that the two functions below share.
  function run_by(by_list, pattern, plan, values, right, listed, factor, work, steps) result(answer)
    integer(dlm_size), intent(in) :: by_list
    type(dlm_pattern), intent(in) :: pattern
    type(dlm_plan), intent(in) :: plan
    real(dlm_real), intent(in) :: values(:), right(:)
    integer(dlm_size), intent(in) :: listed(:)
    type(dlm_factor), intent(inout) :: factor
    type(dlm_work), intent(inout) :: work
    integer(dlm_size), intent(in), optional :: steps
    type(dlm_answer) :: answer
    integer(dlm_size) :: n, rows, numbers(3), number
    n = columns_lent(pattern)
    rows = rows_lent(pattern)
    call make_work(work, rows)
    call make_factor(factor, plan, n, rows)
    number = dalumiveth_run(most_n, pattern%n, height_of(pattern), pattern%starts, size(pattern%starts, kind=dlm_size), &
        pattern%columns, size(pattern%columns, kind=dlm_size), plan%counts, size(plan%counts, kind=dlm_size), &
        plan%l_subs, size(plan%l_subs, kind=dlm_size), plan%l_starts, size(plan%l_starts, kind=dlm_size), &
        plan%l_slots, size(plan%l_slots, kind=dlm_size), plan%u_subs, size(plan%u_subs, kind=dlm_size), &
        plan%u_starts, size(plan%u_starts, kind=dlm_size), plan%u_slots, size(plan%u_slots, kind=dlm_size), &
        values, size(values, kind=dlm_size), right, size(right, kind=dlm_size), by_list, listed, size(listed, kind=dlm_size), &
        is_cut(steps), steps_of(steps), &
        factor%l, size(factor%l, kind=dlm_size), factor%u, size(factor%u, kind=dlm_size), factor%d, n, factor%x, rows, &
        factor%pivots, n, work%row_heads, rows + 1, work%row_links, rows + 1, work%set_heads, rows + 1, &
        work%set_links, rows + 1, work%list, rows, work%spare, rows, work%copy, rows, work%dense, rows + 1, numbers, 3_dlm_size)
    answer = dlm_answer(number, numbers(2))
    factor%updates = numbers(3)
  end function

  ! Eliminates and solves by the largest entry of each column; with `steps`, the first so many steps alone. One of a magnitude below 2^-1022 is
  ! no pivot: 13. Refuses with 1, 25, 2 to 6, 26 and 9 to 14. 26: a pattern with more rows than n is run only with `steps`, n at most.
  function dlm_run_largest(pattern, plan, values, right, factor, work, steps) result(answer)
    type(dlm_pattern), intent(in) :: pattern
    type(dlm_plan), intent(in) :: plan
    real(dlm_real), intent(in) :: values(:), right(:)
    type(dlm_factor), intent(inout) :: factor
    type(dlm_work), intent(inout) :: work
    integer(dlm_size), intent(in), optional :: steps
    type(dlm_answer) :: answer
    answer = run_by(0_dlm_size, pattern, plan, values, right, [integer(dlm_size) ::], factor, work, steps)
  end function

  ! The same with the pivot row of step k given as rows(k), from k to the row count.
  function dlm_run_listed(pattern, plan, values, right, rows, factor, work, steps) result(answer)
    type(dlm_pattern), intent(in) :: pattern
    type(dlm_plan), intent(in) :: plan
    real(dlm_real), intent(in) :: values(:), right(:)
    integer(dlm_size), intent(in) :: rows(:)
    type(dlm_factor), intent(inout) :: factor
    type(dlm_work), intent(inout) :: work
    integer(dlm_size), intent(in), optional :: steps
    type(dlm_answer) :: answer
    answer = run_by(1_dlm_size, pattern, plan, values, right, rows, factor, work, steps)
  end function

  ! Adds the updates of a finished run to the sum of its member, 1 to 16. 27: there is no such member; 19: its sum would pass the largest. The
  ! tally then stays as it was. A sum out of the range 0 to 4,294,967,295, which no call leaves, counts as full. A tally takes one call at a
  ! time, for different members too.
  function dlm_tally_add(tally, member, updates) result(answer)
    type(dlm_tally), intent(inout) :: tally
    integer(dlm_size), intent(in) :: member, updates
    type(dlm_answer) :: answer
    integer(dlm_size), parameter :: largest = 4294967295_dlm_size
    integer(dlm_size) :: numbers(3), number
    integer(c_int32_t) :: bits(dlm_members)
    bits = lowest_32_bits(tally%counters)
    number = dalumiveth_tally_add(bits, int(dlm_members, dlm_size), member, updates, numbers, 3_dlm_size)
    answer = dlm_answer(number, numbers(2))
    if (number /= 0) return
    if (tally%counters(member) < 0 .or. tally%counters(member) > largest) then
      answer = dlm_answer(19, 0)
      return
    end if
    tally%counters(member) = numbers(3)
  end function

  ! Makes the test load of a seed; the same seed, n and d give the same load everywhere. About one place in d is present, and the
  ! diagonal. The load's stores are given their lengths here, so that 6 cannot come about. Refuses with 1 (n is 0 or above 1,024),
  ! 23 (d is 0) and 1 (the load would pass 16,384 entries). A seed is a number from 0 to 4294967295, one above 2147483647 too, as in
  ! 4294967295_dlm_size. Of any other number the lowest 32 bits count: a negative integer of 32 bits means the seed that has its
  ! bits, so that -1 is 4294967295. A negative d is past 63 bits: only a draw of 0 divides by it.
  function dlm_make_load(seed, n, d, load) result(answer)
    integer(dlm_size), intent(in) :: seed, n, d
    type(dlm_load), intent(inout) :: load
    type(dlm_answer) :: answer
    integer(dlm_size) :: rows, numbers(3), number
    rows = max(0_dlm_size, min(n, most_n))             ! stores for a refused n are never used
    call give_numbers(load%pattern%starts, rows + 1)
    call give_numbers(load%pattern%columns, most_entries)
    call give_reals(load%values, most_entries)
    call give_reals(load%right, rows)
    number = dalumiveth_load(lowest_32_bits(seed), n, d, load%pattern%starts, rows + 1, load%pattern%columns, most_entries, &
        load%values, most_entries, load%right, rows, numbers, 3_dlm_size)
    answer = dlm_answer(number, numbers(2))
    load%pattern%n = merge(n, 0_dlm_size, number == 0)
    load%pattern%height = load%pattern%n
    load%pattern%columns = load%pattern%columns(1:numbers(3))
    load%values = load%values(1:numbers(3))
  end function

  ! The lowest 32 bits of a number, as the signed number that stands for C's unsigned one.
  elemental function lowest_32_bits(number) result(bits)
    integer(dlm_size), intent(in) :: number
    integer(c_int32_t) :: bits
    integer(dlm_size), parameter :: half = 2147483648_dlm_size
    bits = int(modulo(modulo(number, 2 * half) + half, 2 * half) - half, c_int32_t)
  end function

  ! Reads an offset such as +012 34 56.789. Every character counts, blanks behind it too: a longer variable is passed as trim(text).
  ! Any other text is 28, minus zero too.
  function dlm_read_offset(text) result(offset)
    character(len=*), intent(in) :: text
    type(dlm_offset) :: offset
    integer(dlm_size) :: numbers(4), number
    real(dlm_real) :: value(1)
    number = dalumiveth_read_offset(text, len(text, kind=dlm_size), value, 1_dlm_size, numbers, 4_dlm_size)
    offset = dlm_offset(number, signed(numbers), value(1))
  end function

  ! Writes the nearest whole number of milliarcseconds, the even one at a half, and answers it. A value that is not finite or rounds
  ! beyond the largest is 29, a text of another length than 14 is 6; after either the text is achar(0) throughout.
  function dlm_write_offset(value, text) result(offset)
    real(dlm_real), intent(in) :: value
    character(len=*), intent(out) :: text
    type(dlm_offset) :: offset
    integer(dlm_size) :: numbers(4), number
    number = dalumiveth_write_offset(value, text, len(text, kind=dlm_size), numbers, 4_dlm_size)
    offset = dlm_offset(number, signed(numbers), real(signed(numbers), dlm_real))
  end function

  ! The whole number that an answer of reading or writing holds.
  pure function signed(numbers) result(whole)
    integer(dlm_size), intent(in) :: numbers(4)
    integer(dlm_size) :: whole
    whole = merge(-numbers(4), numbers(4), numbers(3) /= 0)
  end function

  ! The sentence of a refusal's number, without a full stop.
  function dlm_sentence(number) result(sentence)
    integer(dlm_size), intent(in) :: number
    character(len=:), allocatable :: sentence
    select case (number)
    case (0); sentence = "no refusal"
    case (1); sentence = "n is 0 or above 1,024, or there are more than 16,384 entries"
    case (2); sentence = "the row starts are not one more than the rows, do not begin with 0, fall, or do not end with the &
        &number of entries"
    case (3); sentence = "a column is outside 1 to n"
    case (4); sentence = "the columns of a row do not ascend strictly"
    case (5); sentence = "one of the first n rows lacks its diagonal"
    case (6); sentence = "a starts store of the plan, a work store, or a store for a job's text, a tally, an offset or a &
        &test load has a wrong length"
    case (7); sentence = "an L subscript does not fit into its store"
    case (8); sentence = "a U subscript does not fit into its store"
    case (9); sentence = "the lent plan is not this pattern's: some count, start or used subscript differs"
    case (10); sentence = "values are not as many as entries, right side or x not as many as rows, pivots or d not n, or &
        &slots fewer than planned"
    case (11); sentence = "a value or right side is not finite"
    case (12); sentence = "the row list is not n long, its row k is below k or above the row count, or the run is cut to more &
        &than n steps"
    case (13); sentence = "no row from the step on, or not the listed row, has an entry of magnitude at least 2^-1022 in the &
        &step's column"
    case (14); sentence = "a quotient, product or difference is not finite"
    case (15); sentence = "job: a command byte is unknown or stands where it may not, or R names another row than the next"
    case (16); sentence = "job: the bytes end inside or before a command"
    case (17); sentence = "job: bytes follow Z"
    case (18); sentence = "job: it is over 16,384 bytes"
    case (19); sentence = "the member's sum in the tally would pass 4,294,967,295; the tally stays as it was"
    case (23); sentence = "the divisor d of a test load is 0"
    case (25); sentence = "the rows are fewer than n or more than 2,048"
    case (26); sentence = "a system with more rows than n is to be solved: it can be run only when cut"
    case (27); sentence = "the member number is outside 1 to 16; the tally stays as it was"
    case (28); sentence = "the text is not an offset such as +012 34 56.789 (14 bytes, below 360 degrees), or it is minus zero"
    case (29); sentence = "the number of milliarcseconds is not finite or rounds beyond the largest, 1,295,999,999"
    case default; sentence = "no refusal has this number"
    end select
  end function

  ! The row count that the library is told: n where the pattern names none.
  pure function height_of(pattern) result(height)
    type(dlm_pattern), intent(in) :: pattern
    integer(dlm_size) :: height
    height = merge(pattern%n, pattern%height, pattern%height == not_named)
  end function

  ! Columns and rows that stores are made for; those for a refused number are never used.
  pure function columns_lent(pattern) result(n)
    type(dlm_pattern), intent(in) :: pattern
    integer(dlm_size) :: n
    n = max(0_dlm_size, min(pattern%n, most_n))
  end function

  pure function rows_lent(pattern) result(rows)
    type(dlm_pattern), intent(in) :: pattern
    integer(dlm_size) :: rows
    rows = max(0_dlm_size, min(height_of(pattern), most_height))
  end function

  ! Subscripts or slots that are always enough, in U and in L.
  pure function most_upper(n) result(room)
    integer(dlm_size), intent(in) :: n
    integer(dlm_size) :: room
    room = n * (n - 1) / 2
  end function

  pure function most_lower(n, rows) result(room)
    integer(dlm_size), intent(in) :: n, rows
    integer(dlm_size) :: room
    room = most_upper(n) + n * max(0_dlm_size, rows - n)
  end function

  subroutine make_plan_stores(plan, n, rows)
    type(dlm_plan), intent(inout) :: plan
    integer(dlm_size), intent(in) :: n, rows
    call give_numbers(plan%l_subs, most_lower(n, rows))
    call give_numbers(plan%l_starts, n)
    call give_numbers(plan%l_slots, n + 1)
    call give_numbers(plan%u_subs, most_upper(n))
    call give_numbers(plan%u_starts, n)
    call give_numbers(plan%u_slots, n + 1)
  end subroutine

  subroutine make_work(work, rows)
    type(dlm_work), intent(inout) :: work
    integer(dlm_size), intent(in) :: rows
    call give_numbers(work%row_heads, rows + 1)
    call give_numbers(work%row_links, rows + 1)
    call give_numbers(work%set_heads, rows + 1)
    call give_numbers(work%set_links, rows + 1)
    call give_numbers(work%list, rows)
    call give_numbers(work%spare, rows)
    call give_reals(work%copy, rows)
    call give_reals(work%dense, rows + 1)
  end subroutine

  ! Slots as the plan counts them, but never more than any plan of so many rows has: a plan from elsewhere may have any counts.
  subroutine make_factor(factor, plan, n, rows)
    type(dlm_factor), intent(inout) :: factor
    type(dlm_plan), intent(in) :: plan
    integer(dlm_size), intent(in) :: n, rows
    call give_reals(factor%l, max(0_dlm_size, min(plan%counts(6), most_lower(n, rows))))
    call give_reals(factor%u, max(0_dlm_size, min(plan%counts(7), most_upper(n))))
    call give_reals(factor%d, n)
    call give_reals(factor%x, rows)
    call give_numbers(factor%pivots, n)
  end subroutine

  ! A store of this length; one that has it already is kept, whatever stands in it.
  subroutine give_numbers(store, length)
    integer(dlm_size), allocatable, intent(inout) :: store(:)
    integer(dlm_size), intent(in) :: length
    if (allocated(store)) then
      if (size(store, kind=dlm_size) == length) return
      deallocate(store)
    end if
    allocate(store(length))
  end subroutine

  subroutine give_reals(store, length)
    real(dlm_real), allocatable, intent(inout) :: store(:)
    integer(dlm_size), intent(in) :: length
    if (allocated(store)) then
      if (size(store, kind=dlm_size) == length) return
      deallocate(store)
    end if
    allocate(store(length))
  end subroutine

  pure function is_cut(steps) result(cut)
    integer(dlm_size), intent(in), optional :: steps
    integer(dlm_size) :: cut
    cut = merge(1_dlm_size, 0_dlm_size, present(steps))
  end function

  pure function steps_of(steps) result(number)
    integer(dlm_size), intent(in), optional :: steps
    integer(dlm_size) :: number
    number = 0
    if (present(steps)) number = steps
  end function
end module
