! Fixed calls from Fortran: what the example does not show.
program from_fortran
  use, intrinsic :: iso_c_binding, only: c_int8_t, c_int32_t
  use dalumiveth
  implicit none
  real(dlm_real), parameter :: values(9) = [2, 1, 1, 1, 4, 4, 2, 1, 4]
  real(dlm_real), parameter :: right_side(4) = [3, 2, 8, 7]
  type(dlm_pattern) :: pattern
  type(dlm_plan) :: plan
  type(dlm_work) :: work
  type(dlm_factor) :: factor
  integer :: tried = 0, wrong = 0

  pattern%n = 4
  pattern%starts = [integer(dlm_size) :: 0, 2, 4, 6, 9]
  pattern%columns = [integer(dlm_size) :: 1, 3, 2, 4, 1, 3, 2, 3, 4]
  call test_plan()
  call test_runs()
  call test_refused_plans()
  call test_tall_plan()
  call test_tall_runs()
  call test_row_counts()
  call test_end_of_the_store()
  call test_least_pivot()
  call test_tally()
  call test_job()
  call test_written_offsets()
  call test_refused_offsets()
  call test_offset_stores()
  call test_loads()
  call test_large_seeds()
  call test_refused_loads()
  call test_load_stores()
  print '(i0, a, i0, a)', tried, " tried, ", wrong, " wrong"
  if (wrong /= 0) stop 1

contains

  subroutine expect(holds, what)
    logical, intent(in) :: holds
    character(*), intent(in) :: what
    tried = tried + 1
    if (holds) return
    wrong = wrong + 1
    print '(a, a)', "wrong: ", what
  end subroutine

  logical function is(answer, number, step)
    type(dlm_answer), intent(in) :: answer
    integer, intent(in) :: number, step
    is = answer%refusal == number .and. answer%step == step
  end function

  subroutine test_plan()
    call expect(is(dlm_make_plan(pattern, plan, work), 0, 0), "the four fields are planned")
    call expect(all(plan%l_subs == [3, 4]) .and. all(plan%l_starts == [0, 1, 1, 2]), "M2: the L store")
    call expect(all(plan%u_subs == [3, 4]) .and. all(plan%u_starts == [0, 0, 1, 2]), "M2: the U store")
    call expect(is(dlm_verify_plan(pattern, plan, work), 0, 0), "the plan is the pattern's")
    call expect(all(plan%counts == [4, 4, 9, 2, 2, 3, 4, 31]), "its eight counts")
    plan%counts(8) = 30
    call expect(is(dlm_verify_plan(pattern, plan, work), 9, 0), "a plan with another count is not")
    plan%counts(8) = 31
  end subroutine

  subroutine test_runs()
    real(dlm_real) :: spread(2, 9)
    type(dlm_answer) :: answer
    answer = dlm_run_listed(pattern, plan, values, right_side, [integer(dlm_size) :: 1, 2, 4, 4], factor, work)
    call expect(is(answer, 0, 0) .and. factor%updates == 3 .and. factor%u(4) == 2, "M6: 3 updates, 2 in U slot (3, 4)")
    answer = dlm_run_largest(pattern, plan, values, right_side, factor, work, steps=1_dlm_size)
    call expect(is(answer, 0, 0) .and. all(factor%pivots == [3, 0, 0, 0]), "cut to one step")
    answer = dlm_run_largest(pattern, plan, values, right_side, factor, work, steps=5_dlm_size)
    call expect(is(answer, 12, 0) .and. all(factor%d == 0), "cut to 5 of 4 steps is 12")
    answer = dlm_run_largest(pattern, plan, values(1:8), right_side, factor, work)
    call expect(is(answer, 10, 0), "8 values are 10")
    spread = -1
    spread(2, :) = values
    answer = dlm_run_largest(pattern, plan, spread(2, :), right_side, factor, work)
    call expect(is(answer, 0, 0) .and. all(factor%x == 1), "values with gaps between them")
  end subroutine

  subroutine test_refused_plans()
    type(dlm_pattern) :: other
    type(dlm_plan) :: none
    other = pattern
    other%n = -1
    call expect(is(dlm_make_plan(other, none, work), 1, 0), "a negative n is 1")
    other%n = 1025
    call expect(is(dlm_make_plan(other, none, work), 1, 0) .and. all(none%counts == 0), "1,025 fields are 1")
    other%n = 3
    call expect(is(dlm_make_plan(other, none, work), 2, 0), "starts for another n are 2")
    call expect(is(dlm_run_largest(pattern, none, values, right_side, factor, work), 6, 0), "stores for another n are 6")
  end subroutine

  ! Document 02, ticket 9: three fields in six rows, {1,3}, {2}, {3}, {1,2}, {} and {2,3}.
  function six_rows() result(tall)
    type(dlm_pattern) :: tall
    tall%n = 3
    tall%height = 6
    tall%starts = [integer(dlm_size) :: 0, 2, 3, 4, 6, 6, 8]
    tall%columns = [integer(dlm_size) :: 1, 3, 2, 3, 1, 2, 2, 3]
  end function

  subroutine test_tall_plan()
    type(dlm_plan) :: own_plan
    call expect(is(dlm_make_plan(six_rows(), own_plan, work), 0, 0), "six rows of three columns are planned")
    call expect(all(own_plan%counts == [3, 6, 8, 2, 2, 5, 3, 26]), "with the row count behind n")
    call expect(all(own_plan%l_subs == [4, 6]) .and. all(own_plan%l_starts == [0, 0, 0]), "rows above n in the L store")
    call expect(all(own_plan%u_subs == [2, 3]) .and. all(own_plan%u_starts == [0, 1, 2]), "and columns in the U store")
    call expect(is(dlm_verify_plan(six_rows(), own_plan, work), 0, 0), "that plan is the pattern's")
    own_plan%counts(2) = 5
    call expect(is(dlm_verify_plan(six_rows(), own_plan, work), 9, 0), "one with another row count is not")
  end subroutine

  ! Cut to n steps the first rows are triangular, and what is left of the right side below them is the misfit; whole it is 26.
  subroutine test_tall_runs()
    real(dlm_real), parameter :: own_values(8) = [1.0, 1.5, 1.0, 1.0, 2.0, 2.0, 4.0, 2.0], own_right(6) = [3, 2, 1, 8, 7, 10]
    type(dlm_plan) :: own_plan
    type(dlm_answer) :: answer
    call expect(is(dlm_make_plan(six_rows(), own_plan, work), 0, 0), "the six rows once more")
    answer = dlm_run_largest(six_rows(), own_plan, own_values, own_right, factor, work, steps=3_dlm_size)
    call expect(is(answer, 0, 0) .and. all(factor%pivots == [4, 6, 4]) .and. factor%updates == 3, "pivot rows above n")
    call expect(all(factor%d == [2, 4, 2]) .and. all(factor%u == [2, 0, 2]), "the triangle")
    call expect(all(factor%l == [0.5, -0.25, 0.25, 0.5, -0.25]), "the multipliers")
    call expect(all(factor%x == [8.0, 10.0, 1.5, 0.25, 7.0, -0.125]), "the right side of every row")
    answer = dlm_run_listed(six_rows(), own_plan, own_values, own_right, [integer(dlm_size) :: 4, 6, 6], factor, work, &
        steps=3_dlm_size)
    call expect(is(answer, 0, 0) .and. all(factor%pivots == [4, 6, 6]), "a list up to the row count")
    answer = dlm_run_listed(six_rows(), own_plan, own_values, own_right, [integer(dlm_size) :: 4, 6, 7], factor, work, &
        steps=3_dlm_size)
    call expect(is(answer, 12, 0), "a row above it is 12")
    answer = dlm_run_largest(six_rows(), own_plan, own_values, own_right, factor, work, steps=4_dlm_size)
    call expect(is(answer, 12, 0), "more steps than columns are 12")
    answer = dlm_run_largest(six_rows(), own_plan, own_values, own_right(1:3), factor, work, steps=3_dlm_size)
    call expect(is(answer, 10, 0), "a right side of n rows is 10")
    own_plan%counts = 0
    answer = dlm_run_largest(six_rows(), own_plan, own_values, own_right, factor, work)
    call expect(is(answer, 26, 0) .and. all(factor%x == 0), "solving is 26, before 9")
    call expect(dlm_sentence(26_dlm_size) /= dlm_sentence(24_dlm_size), "26 has a sentence")
  end subroutine

  ! n to 2,048 rows; a square need not name its row count.
  subroutine test_row_counts()
    integer(dlm_size), parameter :: others(5) = [integer(dlm_size) :: 0, 2, -2, 2049, huge(0_dlm_size)]
    type(dlm_pattern) :: tall
    type(dlm_plan) :: own_plan
    integer :: which
    do which = 1, size(others)
      tall = six_rows()
      tall%height = others(which)
      call expect(is(dlm_make_plan(tall, own_plan, work), 25, 0) .and. all(own_plan%counts == 0), "another row count is 25")
      call expect(is(dlm_verify_plan(tall, own_plan, work), 25, 0), "in verifying too")
      tall%n = 1025
      call expect(is(dlm_make_plan(tall, own_plan, work), 1, 0), "1 before 25")
    end do
    tall = six_rows()
    deallocate(tall%starts)
    allocate(tall%starts(2049))
    tall%starts = 8
    tall%starts(1:6) = [0, 2, 3, 4, 6, 6]
    tall%height = 2048
    call expect(is(dlm_make_plan(tall, own_plan, work), 0, 0) .and. own_plan%counts(2) == 2048, "2,048 rows are planned")
    tall = pattern
    tall%height = 4
    call expect(is(dlm_make_plan(tall, own_plan, work), 0, 0) .and. all(own_plan%counts == plan%counts), "a square that names it")
    call expect(dlm_sentence(25_dlm_size) /= dlm_sentence(24_dlm_size), "25 has a sentence")
  end subroutine

  ! Document 02, ticket 5, on rows {1}, {2}, {3}, {1,3,4}: the lists of step 3 stand at the stores' ends, put there by step 1. A plan that lays them anew, as by
  ! the rule before, is 9.
  subroutine test_end_of_the_store()
    type(dlm_pattern) :: own
    type(dlm_plan) :: own_plan
    type(dlm_work) :: own_work
    own%n = 4
    own%starts = [integer(dlm_size) :: 0, 1, 2, 3, 6]
    own%columns = [integer(dlm_size) :: 1, 2, 3, 1, 3, 4]
    call expect(is(dlm_make_plan(own, own_plan, own_work), 0, 0), "lists at the store's end are planned")
    call expect(all(own_plan%l_subs == [4]) .and. all(own_plan%l_starts == [0, 1, 0, 1]), "shared in the L store")
    call expect(all(own_plan%u_subs == [3, 4]) .and. all(own_plan%u_starts == [0, 2, 1, 2]), "shared in the U store")
    call expect(is(dlm_verify_plan(own, own_plan, own_work), 0, 0), "that plan is the pattern's")
    own_plan%l_subs = [integer(dlm_size) :: 4, 4]
    own_plan%l_starts = [integer(dlm_size) :: 0, 1, 1, 2]
    own_plan%u_subs = [integer(dlm_size) :: 3, 4, 4]
    own_plan%u_starts = [integer(dlm_size) :: 0, 2, 2, 3]
    own_plan%counts(4:5) = [2, 3]
    call expect(is(dlm_verify_plan(own, own_plan, own_work), 9, 0), "a plan by the rule before is 9")
  end subroutine

  ! Document 02, ticket 14: 2^-1022 may be a pivot, the largest number below it may not, of either sign.
  subroutine test_least_pivot()
    type(dlm_pattern) :: one
    type(dlm_plan) :: own_plan
    real(dlm_real) :: limit, faint
    integer :: way
    limit = transfer(4503599627370496_dlm_size, limit)
    faint = transfer(4503599627370495_dlm_size, faint)
    one%n = 1
    one%starts = [integer(dlm_size) :: 0, 1]
    one%columns = [integer(dlm_size) :: 1]
    call expect(is(dlm_make_plan(one, own_plan, work), 0, 0), "one field is planned")
    do way = -1, 1, 2
      call expect(is(dlm_run_largest(one, own_plan, [way * limit], [limit], factor, work), 0, 0), "the value 2^-1022 is solved")
      call expect(factor%x(1) == way, "and its offset is right")
      call expect(is(dlm_run_largest(one, own_plan, [way * faint], [limit], factor, work), 13, 1), "the largest below it is 13")
      call test_faint_above([way * faint, 1.0_dlm_real, limit, 1.0_dlm_real])
    end do
  end subroutine

  ! Two fields: the entry of the upper row in column 1 is below the limit, that of the lower one reaches it.
  subroutine test_faint_above(entries)
    real(dlm_real), intent(in) :: entries(4)
    real(dlm_real), parameter :: ones(2) = 1
    type(dlm_pattern) :: two
    type(dlm_plan) :: own_plan
    type(dlm_answer) :: answer
    two%n = 2
    two%starts = [integer(dlm_size) :: 0, 2, 4]
    two%columns = [integer(dlm_size) :: 1, 2, 1, 2]
    call expect(is(dlm_make_plan(two, own_plan, work), 0, 0), "two fields are planned")
    answer = dlm_run_largest(two, own_plan, entries, ones, factor, work)
    call expect(is(answer, 0, 0) .and. factor%pivots(1) == 2, "a row at the limit is exchanged with a fainter one")
    answer = dlm_run_listed(two, own_plan, entries, ones, [integer(dlm_size) :: 1, 2], factor, work)
    call expect(is(answer, 13, 1), "a list that names the fainter row is 13")
    answer = dlm_run_listed(two, own_plan, entries, ones, [integer(dlm_size) :: 2, 2], factor, work)
    call expect(is(answer, 0, 0) .and. factor%pivots(1) == 2, "a list that names the row at the limit is not")
  end subroutine

  ! Sums above 2,147,483,647 are where a signed number of 32 bits ends.
  subroutine test_tally()
    type(dlm_tally) :: tally, before
    integer(dlm_size) :: member
    integer(dlm_size), parameter :: largest = 4294967295_dlm_size
    do member = 1, dlm_members
      before = tally
      before%counters(member) = 2147483640_dlm_size
      call expect(is(dlm_tally_add(tally, member, 2147483640_dlm_size), 0, 0), "the updates of a member")
      call expect(all(tally%counters == before%counters), "its counter alone has them")
    end do
    call expect(is(dlm_tally_add(tally, 7_dlm_size, 20_dlm_size), 0, 0), "the updates of member 7 once more")
    call expect(tally%counters(7) == 2147483660_dlm_size, "past 31 bits")
    call expect(is(dlm_tally_add(tally, 7_dlm_size, 2147483635_dlm_size), 0, 0), "up to the largest sum")
    call expect(tally%counters(7) == largest, "the largest sum")
    before = tally
    call expect(is(dlm_tally_add(tally, 7_dlm_size, 1_dlm_size), 19, 0), "one more is 19")
    call expect(is(dlm_tally_add(tally, 8_dlm_size, -1_dlm_size), 19, 0), "updates below zero are past 63 bits")
    call expect(all(tally%counters == before%counters), "19 leaves all sixteen")
    call expect(is(dlm_tally_add(tally, 6_dlm_size, 1_dlm_size), 0, 0), "its neighbour has room")
    call expect(tally%counters(6) == 2147483641_dlm_size, "and gets its update")
    call test_no_members(tally)
  end subroutine

  subroutine test_no_members(tally)
    type(dlm_tally), intent(inout) :: tally
    type(dlm_tally) :: before
    integer(dlm_size), parameter :: others(7) = [integer(dlm_size) :: 0, 17, -1, 257, 65552, 4294967297_dlm_size, huge(0_dlm_size)]
    integer(dlm_size) :: number, answer(3)
    integer(c_int32_t) :: counters(17)
    integer :: which
    before = tally
    do which = 1, size(others)
      call expect(is(dlm_tally_add(tally, others(which), 1_dlm_size), 27, 0), "no such member")
      call expect(is(dlm_tally_add(tally, others(which), -1_dlm_size), 27, 0), "27 before 19")
      call expect(all(tally%counters == before%counters), "27 leaves all sixteen")
    end do
    tally%counters(3) = -1
    call expect(is(dlm_tally_add(tally, 3_dlm_size, 0_dlm_size), 19, 0), "no tally has a sum below zero")
    call expect(tally%counters(3) == -1, "it stays as it was")
    tally%counters(3) = 4294967296_dlm_size
    call expect(is(dlm_tally_add(tally, 3_dlm_size, 0_dlm_size), 19, 0), "no tally has this sum")
    call expect(is(dlm_tally_add(tally, 4_dlm_size, 0_dlm_size), 0, 0), "its neighbour has its own")
    call expect(tally%counters(3) == 4294967296_dlm_size, "and leaves it alone")
    counters = 5
    number = dalumiveth_tally_add(counters, 17_dlm_size, 1_dlm_size, 1_dlm_size, answer, 3_dlm_size)
    call expect(number == 6 .and. all(answer == [6, 0, 0]) .and. all(counters == 5), "seventeen counters are 6")
  end subroutine

  subroutine test_job()
    integer(c_int8_t) :: out(8192)
    character(len=13) :: text
    integer(dlm_size) :: number, answer(3)
    number = dalumiveth_job([78_c_int8_t], 1_dlm_size, out, 8192_dlm_size, answer, 3_dlm_size)
    text = transfer(out(1:13), text)
    call expect(number == 0 .and. all(answer == [0, 0, 13]), "the job is answered")
    call expect(text == "refused 16 0" // new_line("a"), "the byte N alone is 16")
    number = dalumiveth_job([78_c_int8_t], 1_dlm_size, out, 8191_dlm_size, answer, 3_dlm_size)
    call expect(number == 6 .and. all(answer == [6, 0, 0]) .and. all(out(1:8191) == 0), "a shorter text store is 6")
  end subroutine

  ! Document 02, ticket 11: the nearest whole number, the even one at a half; zero has plus.
  subroutine test_written_offsets()
    real(dlm_real), parameter :: largest = real(dlm_most_offset, dlm_real)
    call expect_written(0.0_dlm_real, "+000 00 00.000", 0)
    call expect_written(-0.0_dlm_real, "+000 00 00.000", 0)
    call expect_written(tiny(1.0_dlm_real) / 2, "+000 00 00.000", 0)
    call expect_written(-0.4_dlm_real, "+000 00 00.000", 0)
    call expect_written(-0.5_dlm_real, "+000 00 00.000", 0)
    call expect_written(0.5_dlm_real, "+000 00 00.000", 0)
    call expect_written(nearest(0.5_dlm_real, 1.0), "+000 00 00.001", 1)
    call expect_written(1.5_dlm_real, "+000 00 00.002", 2)
    call expect_written(-1.5_dlm_real, "-000 00 00.002", -2)
    call expect_written(2.5_dlm_real, "+000 00 00.002", 2)
    call expect_written(45296789.25_dlm_real, "+012 34 56.789", 45296789)
    call expect_written(-45296789.0_dlm_real, "-012 34 56.789", -45296789)
    call expect_written(largest, "+359 59 59.999", int(dlm_most_offset))
    call expect_written(nearest(largest + 0.5_dlm_real, -1.0), "+359 59 59.999", int(dlm_most_offset))
    call expect_written(-nearest(largest + 0.5_dlm_real, -1.0), "-359 59 59.999", -int(dlm_most_offset))
  end subroutine

  subroutine expect_written(value, text, whole)
    real(dlm_real), intent(in) :: value
    character(*), intent(in) :: text
    integer, intent(in) :: whole
    character(len=dlm_offset_bytes) :: out
    type(dlm_offset) :: offset
    offset = dlm_write_offset(value, out)
    call expect(offset%refusal == 0 .and. offset%whole == whole .and. offset%value == whole, text // ": the number written")
    call expect(out == text, text // " is written")
    offset = dlm_read_offset(text)
    call expect(offset%refusal == 0 .and. offset%whole == whole .and. offset%value == whole, text // " is read")
    call expect(sign(1.0_dlm_real, offset%value) == merge(-1, 1, whole < 0), text // " has no -0")
  end subroutine

  subroutine test_refused_offsets()
    real(dlm_real), parameter :: tie = dlm_most_offset + 0.5_dlm_real    ! to the even number, which is too large
    character(len=20) :: longer
    type(dlm_offset) :: offset
    call expect_beyond(tie)
    call expect_beyond(-tie)
    call expect_beyond(2.0_dlm_real**52)
    call expect_beyond(huge(tie))
    call expect_beyond(transfer(9218868437227405312_dlm_size, tie))      ! infinity
    call expect_beyond(transfer(9221120237041090560_dlm_size, tie))      ! NaN
    call expect_other_text("-000 00 00.000")
    call expect_other_text("+360 00 00.000")
    call expect_other_text("+012 60 56.789")
    call expect_other_text("+012 34 60.000")
    call expect_other_text("+012 34 56,789")
    call expect_other_text("+012" // achar(9) // "34 56.789")
    call expect_other_text("+012 34 56.78")
    call expect_other_text("+012 34 56.7890")
    call expect_other_text("+012 34 5x.789")
    call expect_other_text("")
    longer = "+012 34 56.789"
    call expect_other_text(longer)
    offset = dlm_read_offset(trim(longer))
    call expect(offset%whole == 45296789, "a longer variable, trimmed")
    call expect(dlm_sentence(28_dlm_size) /= dlm_sentence(27_dlm_size), "28 has a sentence")
    call expect(dlm_sentence(29_dlm_size) /= dlm_sentence(30_dlm_size), "29 has a sentence")
  end subroutine

  subroutine expect_beyond(value)
    real(dlm_real), intent(in) :: value
    character(len=dlm_offset_bytes) :: out
    type(dlm_offset) :: offset
    offset = dlm_write_offset(value, out)
    call expect(offset%refusal == 29 .and. offset%whole == 0 .and. offset%value == 0, "beyond the largest is 29")
    call expect(out == repeat(achar(0), dlm_offset_bytes), "and leaves zeros")
  end subroutine

  subroutine expect_other_text(text)
    character(*), intent(in) :: text
    type(dlm_offset) :: offset
    offset = dlm_read_offset(text)
    call expect(offset%refusal == 28 .and. offset%whole == 0 .and. offset%value == 0, "'" // text // "' is 28")
  end subroutine

  ! The exported functions: a result store of another length is 6, before 28 and before 29; `answer` may have any length.
  subroutine test_offset_stores()
    character(len=15) :: out
    integer(dlm_size) :: number, answer(6)
    real(dlm_real) :: reals(2)
    type(dlm_offset) :: offset
    out = repeat("x", 15)
    offset = dlm_write_offset(1.0_dlm_real, out(1:13))
    call expect(offset%refusal == 6 .and. out == repeat(achar(0), 13) // "xx", "a variable of 13 characters is 6")
    offset = dlm_write_offset(huge(reals(1)), out)
    call expect(offset%refusal == 6 .and. out == repeat(achar(0), 15), "one of 15 is 6, before 29")
    offset = dlm_write_offset(1.0_dlm_real, out(2:15))
    call expect(offset%whole == 1 .and. out == achar(0) // "+000 00 00.001", "14 characters of a longer one are written")
    reals = 7
    number = dalumiveth_read_offset("+360 00 00.000", 14_dlm_size, reals, 2_dlm_size, answer, 4_dlm_size)
    call expect(number == 6 .and. all(answer(1:4) == [6, 0, 0, 0]) .and. all(reals == 0), "a value of two places is 6 before 28")
    out = repeat("x", 15)
    number = dalumiveth_write_offset(huge(reals(1)), out, 15_dlm_size, answer, 4_dlm_size)
    call expect(number == 6 .and. all(answer(1:4) == [6, 0, 0, 0]), "15 places for the text are 6 before 29")
    call expect(out == repeat(achar(0), 15), "and zeros")
    answer = 7
    number = dalumiveth_read_offset("-000 00 00.002", 14_dlm_size, reals, 1_dlm_size, answer, 6_dlm_size)
    call expect(number == 0 .and. all(answer == [0, 0, 1, 2, 0, 0]) .and. reals(1) == -2, "a longer answer")
    answer = 7
    number = dalumiveth_write_offset(-2.0_dlm_real, out, 14_dlm_size, answer, 3_dlm_size)
    call expect(number == 0 .and. all(answer == [0, 0, 1, 7, 7, 7]) .and. out(1:14) == "-000 00 00.002", "a shorter answer")
  end subroutine

  ! Document 02, ticket 6: a load as it was worked out elsewhere, and one that is planned and run.
  subroutine test_loads()
    type(dlm_load) :: load
    type(dlm_plan) :: own_plan
    call expect(is(dlm_make_load(1984_dlm_size, 5_dlm_size, 3_dlm_size, load), 0, 0), "the load of seed 1984")
    call expect(load%pattern%n == 5 .and. all(load%pattern%starts == [0, 3, 4, 5, 6, 8]), "its row starts")
    call expect(size(load%pattern%columns) == 8 .and. size(load%values) == 8, "and how many entries it has")
    call expect(all(load%pattern%columns == [1, 3, 4, 2, 3, 4, 3, 5]), "its columns")
    call expect(all(load%values == [74, 15, -826, 189, 291, 626, 644, 495]), "its values")
    call expect(all(load%right == [962, 734, 298, -947, 855]), "its right side")
    call expect(is(dlm_make_load(7_dlm_size, 128_dlm_size, 1_dlm_size, load), 0, 0), "a load with every place of 128 rows")
    call expect(size(load%pattern%columns) == 16384 .and. load%pattern%starts(129) == 16384, "16,384 entries")
    call expect(is(dlm_make_load(7_dlm_size, 40_dlm_size, 6_dlm_size, load), 0, 0), "a load for a plan")
    call expect(is(dlm_make_plan(load%pattern, own_plan, work), 0, 0), "a load is planned")
    call expect(is(dlm_run_largest(load%pattern, own_plan, load%values, load%right, factor, work), 0, 0), "a load is run")
    call expect(residual(load) < 1e-6_dlm_real, "and solved")
  end subroutine

  ! How far the equations of a load are from holding with factor%x.
  real(dlm_real) function residual(load)
    type(dlm_load), intent(in) :: load
    integer(dlm_size) :: i, from, to
    residual = 0
    do i = 1, load%pattern%n
      from = load%pattern%starts(i) + 1
      to = load%pattern%starts(i + 1)
      residual = max(residual, abs(sum(load%values(from:to) * factor%x(load%pattern%columns(from:to))) - load%right(i)))
    end do
  end function

  ! Seeds above 2147483647, where a signed number of 32 bits ends, and the same bits as a negative number. One row is two draws.
  subroutine test_large_seeds()
    type(dlm_load) :: load, other
    integer(dlm_size), parameter :: one = 1
    call expect(is(dlm_make_load(4294967295_dlm_size, one, one, load), 0, 0), "the largest seed")
    call expect(load%values(1) == -679 .and. load%right(1) == 801, "its first two draws")
    call expect(is(dlm_make_load(-one, one, one, other), 0, 0), "its bits in a signed number")
    call expect(load%values(1) == other%values(1) .and. load%right(1) == other%right(1), "mean the same seed")
    call expect(is(dlm_make_load(3281063054_dlm_size, 2 * one, -one, load), 0, 0), "a d past 63 bits")
    call expect(all(load%pattern%columns == [1, 2, 2]), "by which a draw of 0 divides")
    call expect(is(dlm_make_load(int(-1013904242, dlm_size), 2 * one, 4294967297_dlm_size, load), 0, 0), "a d past 32 bits")
    call expect(all(load%pattern%columns == [1, 2, 2]), "the same, and the same seed")
  end subroutine

  subroutine test_refused_loads()
    integer(dlm_size), parameter :: no_rows(5) = [integer(dlm_size) :: 0, -1, 1025, 4294967297_dlm_size, huge(0_dlm_size)]
    integer :: which
    do which = 1, size(no_rows)
      call expect_refused_load(no_rows(which), 3_dlm_size, 1)
      call expect_refused_load(no_rows(which), 0_dlm_size, 1)
    end do
    call expect_refused_load(1_dlm_size, 0_dlm_size, 23)
    call expect_refused_load(1024_dlm_size, 0_dlm_size, 23)
    call expect_refused_load(129_dlm_size, 1_dlm_size, 1)
    call expect(dlm_sentence(23_dlm_size) /= dlm_sentence(22_dlm_size), "23 has a sentence")
  end subroutine

  ! A load that was made before, so that its stores are not zeros.
  subroutine expect_refused_load(n, d, number)
    integer(dlm_size), intent(in) :: n, d
    integer, intent(in) :: number
    type(dlm_load) :: load
    type(dlm_plan) :: none
    call expect(is(dlm_make_load(7_dlm_size, 5_dlm_size, 1_dlm_size, load), 0, 0), "a load")
    call expect(is(dlm_make_load(7_dlm_size, n, d, load), number, 0), "a load is refused")
    call expect(load%pattern%n == 0 .and. size(load%pattern%columns) == 0 .and. size(load%values) == 0, "and has no entries")
    call expect(all(load%pattern%starts == 0) .and. all(load%right == 0), "and zeros")
    call expect(is(dlm_make_plan(load%pattern, none, work), 1, 0), "what is left of it is 1")
  end subroutine

  ! The exported function: a store of another length is 6, after 1 for n and 23, before 1 for the entries.
  subroutine test_load_stores()
    integer(dlm_size), allocatable :: starts(:), columns(:)
    real(dlm_real), allocatable :: reals(:), rights(:)
    integer(dlm_size) :: lengths(4), number, answer(4)
    integer :: store
    allocate(starts(131), columns(16385), reals(16385), rights(130))
    do store = 1, 4
      lengths = [130, 16384, 16384, 129]
      lengths(store) = lengths(store) + 1
      starts = 9
      columns = 9
      reals = 9
      rights = 9
      number = dalumiveth_load(7_c_int32_t, 129_dlm_size, 1_dlm_size, starts, lengths(1), columns, lengths(2), &
          reals, lengths(3), rights, lengths(4), answer, 4_dlm_size)
      call expect(number == 6 .and. all(answer == [6, 0, 0, 0]), "a store with a place too many is 6 before 1")
      call expect(all(starts(1:lengths(1)) == 0) .and. all(columns(1:lengths(2)) == 0), "and zeros")
      call expect(all(reals(1:lengths(3)) == 0) .and. all(rights(1:lengths(4)) == 0), "in all four")
      number = dalumiveth_load(7_c_int32_t, 129_dlm_size, 0_dlm_size, starts, lengths(1), columns, lengths(2), &
          reals, lengths(3), rights, lengths(4), answer, 4_dlm_size)
      call expect(number == 23, "23 before 6")
    end do
  end subroutine
end program
