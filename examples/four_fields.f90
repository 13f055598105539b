! The four fields of document 01 in Fortran: planned once, run by the largest entry, then run by a row list that is refused.
!
!   make -C examples check
!
! Prints what four_fields.c prints.
program four_fields
  use dalumiveth
  implicit none
  type(dlm_pattern) :: pattern
  type(dlm_plan) :: plan
  type(dlm_work) :: work
  type(dlm_factor) :: factor
  type(dlm_answer) :: answer
  real(dlm_real), parameter :: values(9) = [2, 1, 1, 1, 4, 4, 2, 1, 4]
  real(dlm_real), parameter :: right_side(4) = [3, 2, 8, 7]
  integer(dlm_size), parameter :: list(4) = [2, 2, 3, 4]     ! row 2 has no entry in column 1, so step 1 has no pivot

  ! Rows {1,3}, {2,4}, {1,3}, {2,3,4}. The row starts count places from 0.
  pattern%n = 4
  pattern%starts = [integer(dlm_size) :: 0, 2, 4, 6, 9]
  pattern%columns = [integer(dlm_size) :: 1, 3, 2, 4, 1, 3, 2, 3, 4]

  answer = dlm_make_plan(pattern, plan, work)
  call stop_if_refused("plan")
  print '(a, 7(1x, i0))', "plan", plan%counts(1), plan%counts(3:)     ! a square's row count is n

  answer = dlm_run_largest(pattern, plan, values, right_side, factor, work)
  call stop_if_refused("run")
  call print_factor()

  answer = dlm_run_listed(pattern, plan, values, right_side, list, factor, work)
  if (answer%refusal /= 0) call print_refusal("list 2 2 3 4")

contains

  ! A refusal is an answer, not a crash: it has a number, for 7, 8, 13 and 14 a step, and a sentence.
  subroutine print_refusal(call_name)
    character(*), intent(in) :: call_name
    print '(a, a, i0, a, i0, a, a)', call_name, " refused ", answer%refusal, ", step ", answer%step, ": ", &
        dlm_sentence(answer%refusal)
  end subroutine

  subroutine stop_if_refused(call_name)
    character(*), intent(in) :: call_name
    if (answer%refusal == 0) return
    call print_refusal(call_name)
    stop 1
  end subroutine

  subroutine print_factor()
    integer :: field
    print '(a, 1024(1x, i0))', "rows", factor%pivots
    do field = 1, size(factor%x)
      print '(a, i0, 1x, f0.6)', "offset ", field, factor%x(field)
    end do
    print '(a, i0)', "updates ", factor%updates
  end subroutine
end program
