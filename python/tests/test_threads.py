"""Many threads over one table: no request is lost, and no answer is wrong."""
import random
import threading
import time

import prefq
from support import QUESTION, TestCase, around, hotels, numbers


def all_of(count, function):
    """Runs the function on so many threads, each with its number, and returns what they raised."""
    raised = []

    def run(number):
        try:
            function(number)
        except BaseException as why:
            raised.append(why)

    threads = [threading.Thread(target=run, args=(number,)) for number in range(count)]
    for thread in threads:
        thread.start()
    for thread in threads:
        thread.join(120)
    assert not any(thread.is_alive() for thread in threads), "a thread hangs"
    return raised


class Threads(TestCase):
    def test_a_thousand_requests_from_twenty_threads(self):
        done = []
        with prefq.Table(["thread", "value"], [[-1, 0]], capacity=8192) as table:
            def work(number):
                chance, mine = random.Random(number), {}
                for _ in range(50):
                    kind = chance.choice(["insert", "update", "delete", "get", "best", "many"])
                    values = [number, chance.randrange(1000)]
                    if kind == "insert" or not mine:
                        mine[table.insert(values)] = values
                    elif kind == "many":
                        mine.update((id, values) for id in table.insert_many([values] * 20))
                    elif kind == "update":
                        id = chance.choice(sorted(mine))
                        table.update(id, values)
                        mine[id] = values
                    elif kind == "delete":
                        id = chance.choice(sorted(mine))
                        table.delete(id)
                        del mine[id]
                    elif kind == "get":
                        id = chance.choice(sorted(mine))
                        self.assertEqual(table.get(id), mine[id])
                    elif kind == "best":
                        best = [row for row in table.best("best low(value) by thread") if row.thread == number]
                        least = min(value for _, value in mine.values())
                        self.assertEqual({row.id: list(row.values()) for row in best}, {id: values for id, values in mine.items() if values[1] == least})
                    done.append(kind)
                done.append(mine)

            self.assertEqual(all_of(20, work), [])
            self.assertEqual(len([kind for kind in done if isinstance(kind, str)]), 1000)
            rows = {id: values for mine in done if isinstance(mine, dict) for id, values in mine.items()}
            self.assertEqual(dict(table.rows()), {1: [-1, 0], **rows})
            self.assertEqual(len(table), 1 + len(rows))
            self.assertEqual(table.room(), 8192 - len(table))

    def test_one_query_from_many_threads(self):
        answers = []
        with hotels(block=1, capacity=64) as table:
            query = table.query(QUESTION)

            def work(number):
                try:
                    answers.append([row.id for row in query.answer()])
                except prefq.Refused as why:
                    answers.append(why.number)

            self.assertEqual(all_of(8, work), [])
            # The others find that it has ended, or that another one has scanned its last block.
            *refused, answer = sorted(answers, key=str)
            self.assertEqual((len(refused), {*refused} - {4, 5}, answer), (7, set(), [1, 2, 3, 6]))

    def test_more_queries_than_clients(self):
        with hotels(clients=2, block=16) as table:
            def work(number):
                for _ in range(5):
                    self.assertEqual([row.id for row in table.best(QUESTION)], [1, 2, 3, 6])
            self.assertEqual(all_of(12, work), [])

    def test_a_client_is_waited_for(self):
        with hotels(clients=1) as table:
            query = table.query(QUESTION)
            timer = threading.Timer(0.2, query.abandon)
            other = []
            asks = threading.Thread(target=lambda: other.append(len(table.best(QUESTION))))
            timer.start()
            asks.start()
            asks.join(30)
            self.assertEqual(other, [4])

    def test_a_change_comes_between_two_pieces_of_a_long_question(self):
        """Which has a snapshot from before."""
        with numbers(50, block=1, capacity=60) as table:
            pieces, answers = [], []

            def takes_long():
                pieces.append(time.monotonic())
                time.sleep(0.02)

            with around(table, "scan", before=takes_long):
                asks = threading.Thread(target=lambda: answers.append(table.best("best low(x)")))
                asks.start()
                while not pieces:
                    time.sleep(0.001)
                table.insert([5])
                between = len(pieces)
                asks.join(60)
            self.assertLess(between, len(pieces))
            self.assertEqual(len(pieces), 60)
            self.assertEqual([row.id for row in answers[0]], [1])
            self.assertEqual([row.id for row in table.best("best low(x)")], [51])
