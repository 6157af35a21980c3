"""How long SHOW takes over a book of many transactions: python3 shows.py PROGRAM [COUNT ..].

For each COUNT a folder is filled by so many INSERTs (in runs of 5,000 statements); then a run of one SHOW and a run of 21 are timed,
and a twentieth of the difference is what one takes. The opening is in neither.
"""
import subprocess, sys, tempfile, time, os, shutil, resource
program = sys.argv[1]
counts = [int(x) for x in sys.argv[2:]] or [2500, 5000, 10000]
def run(folder, text):
    begin = time.monotonic()
    r = subprocess.run([program, folder, 'run'], input=text.encode(), stdout=subprocess.PIPE, stderr=subprocess.PIPE)
    if r.returncode not in (0, 1): sys.exit((r.returncode, r.stderr[-500:]))
    return time.monotonic() - begin, r.stdout
base = tempfile.mkdtemp()
for count in counts:
    folder = os.path.join(base, str(count))
    run(folder, 'CREATE TABLE t (a INT) PARTITIONED BY (p STRING);\n')
    done = 0
    while done < count:
        n = min(5000, count - done)
        run(folder, ''.join(f"INSERT INTO t VALUES ({done + k}, 'p{(done + k) % 50}');\n" for k in range(n)))
        done += n
    for show in ('SHOW TABLES', 'SHOW PARTITIONS t', 'SHOW TRANSACTIONS', 'SHOW LOCKS'):
        one = min(run(folder, show + ';\n')[0] for _ in range(2))
        many = min(run(folder, (show + ';\n') * 21)[0] for _ in range(2))
        print(f'{count} transactions, {show}: {(many - one) / 20 * 1000:.2f} ms (a run with one {one:.2f} s)', flush=True)
shutil.rmtree(base)
