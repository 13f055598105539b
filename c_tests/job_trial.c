/* A trial as the bytes of a job, and the lines that document 01 says are printed for it. */
#include "trial.h"

#include <stdio.h>

/* What the job program lends: subscripts and slots a side. */
enum { JOB_ROOM = 2048 };

static uint8_t *put_command(uint8_t *at, char command, size_t operand)
{
    at[0] = (uint8_t)command;
    at[1] = (uint8_t)(operand & 0xFF);
    at[2] = (uint8_t)(operand >> 8);
    return at + 3;
}

static uint8_t *put_real(uint8_t *at, double real)
{
    uint64_t bits = bits_of_real(real);
    size_t byte;
    for (byte = 0; byte < 8; byte++)
        at[byte] = (uint8_t)(bits >> (8 * byte) & 0xFF);
    return at + 8;
}

uint8_t *job_of_trial(const trial *t, size_t *length)
{
    size_t room = 4 + 15 * t->size + 11 * t->columns.length;
    uint8_t *job = (uint8_t *)malloc(room);
    uint8_t *at = job;
    size_t i;
    size_t place;
    if (job == NULL)
        exit(EXIT_FAILURE);
    at = put_command(at, 'N', t->size);
    for (i = 1; i <= t->size; i++) {
        at = put_command(at, 'R', i);
        for (place = t->starts.at[i - 1]; place < t->starts.at[i]; place++)
            at = put_real(put_command(at, 'E', t->columns.at[place]), t->values.at[place]);
        *at++ = 'B';
        at = put_real(at, t->right.at[i - 1]);
    }
    for (i = 1; t->listed && i <= t->size; i++)
        at = put_command(at, 'P', t->rows.at[i - 1]);
    *at++ = 'Z';
    *length = (size_t)(at - job);
    return job;
}

/* The answer to a job that no fault spoilt: 18, 7, 8, 10, 13, 14 or none. */
static dlm_answer answer_to_job(const trial *t, size_t job_length, const plain_plan *plain, plain_run *run)
{
    dlm_pattern pattern = trial_pattern(t);
    dlm_system system = trial_system(t);
    dlm_answer answer = plain_judge_room(plain, JOB_ROOM, JOB_ROOM);
    if (job_length > DLM_MOST_JOB)
        return plain_answer(18, 0);
    if (answer.refusal != DLM_NONE)
        return answer;
    if (plain->l.slots[t->size] > JOB_ROOM || plain->u.slots[t->size] > JOB_ROOM)
        return plain_answer(10, 0);
    plain_eliminate(&pattern, &system, t->listed ? BY_LIST : BY_LARGEST, t->rows.at, NULL, dlm_whole(), run);
    return run->answer;
}

static void print_run(const plain_plan *plain, const plain_run *run, char *text, size_t room)
{
    size_t n = plain->n;
    size_t i;
    size_t end = (size_t)snprintf(text, room, "plan %zu %zu %zu %zu %zu %zu %zu\nrows", n, plain->entries, plain->l.end[n], plain->u.end[n],
                                  plain->l.slots[n], plain->u.slots[n], plain->reads);
    for (i = 1; i <= n; i++)
        end += (size_t)snprintf(text + end, room - end, " %zu", run->pivots[i]);
    end += (size_t)snprintf(text + end, room - end, "\n");
    for (i = 1; i <= n; i++)
        end += (size_t)snprintf(text + end, room - end, "x %zu %016llX\n", i, (unsigned long long)bits_of_real(run->x[i]));
    snprintf(text + end, room - end, "updates %zu\n", run->updates);
}

void expected_of_job(const trial *t, size_t job_length, const plain_plan *plain, char *text, size_t room)
{
    static plain_run run;
    dlm_answer answer = answer_to_job(t, job_length, plain, &run);
    if (answer.refusal == DLM_NONE)
        print_run(plain, &run, text, room);
    else
        snprintf(text, room, "refused %d %zu\n", (int)answer.refusal, answer.step);
}
