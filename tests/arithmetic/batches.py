"""Drawn cases, worked by a driver batch by batch and judged one by one."""
import subprocess
import sys

BATCH = 20000
SHOWN = 20


def answered(driver, lines):
    """The driver's answers, one for each line."""
    text = ''.join(line + '\n' for line in lines)
    answers = subprocess.run([driver], input=text, capture_output=True, text=True, check=True).stdout.splitlines()
    if len(answers) != len(lines):
        sys.exit(f'{len(lines)} operations, {len(answers)} answers')
    return [tuple(map(int, answer.split())) for answer in answers]


def compared(driver, count, drawn, line, judged):
    """How many of so many cases are wrong. `judged` lists what is wrong with an answer; the first cases of these are printed."""
    done, wrong = 0, 0
    while done < count:
        batch = [drawn() for _ in range(min(BATCH, count - done))]
        for case, got in zip(batch, answered(driver, [line(case) for case in batch])):
            faults = judged(case, got)
            wrong += bool(faults)
            if faults and wrong <= SHOWN:
                print(*faults, sep='\n', flush=True)
        done += len(batch)
        print(f'\r{done} of {count} cases, {wrong} differences', end='', file=sys.stderr, flush=True)
    print(file=sys.stderr)
    return wrong
