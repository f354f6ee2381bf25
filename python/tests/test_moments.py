"""Moments: times of zones, of numpy, and texts of formats, each of which comes back as it was given or is refused."""
import datetime
import io
import unittest
import warnings

import prefq
from prefq.kinds import kind_named
from support import TestCase

try:
    import numpy
    import pandas
except ImportError:
    pandas = None

skip_without_pandas = unittest.skipIf(pandas is None, "pandas is not installed")
UTC = datetime.timezone.utc


def frames_in(zone):
    """A frame of three times of a zone in each way that there is for zones."""
    from zoneinfo import ZoneInfo
    times = [datetime.datetime(2026, 7, 1, hour) for hour in (8, 9, 10)]
    yield prefq.Frame.from_records([{"at": time.replace(tzinfo=ZoneInfo(zone)), "v": v} for v, time in enumerate(times, 1)])
    if pandas is not None:
        yield prefq.Frame.from_dataframe(pandas.DataFrame({"at": pandas.to_datetime(times).tz_localize(zone), "v": [1, 2, 3]}))
    yield prefq.Frame.from_csv(io.StringIO("at,v\n2026-07-01 08:00,1\n2026-07-01 09:00,2\n2026-07-01 10:00,3\n"), kinds={"at": f"time({zone})"})


class TimesOfZones(TestCase):
    def test_a_time_that_the_clocks_skip_is_refused(self):
        """Python takes it for a time of an hour later."""
        from zoneinfo import ZoneInfo
        berlin = ZoneInfo("Europe/Berlin")
        skipped, before = datetime.datetime(2026, 3, 29, 2, 30, tzinfo=berlin), datetime.datetime(2026, 3, 29, 1, 59, 59, 999999, tzinfo=berlin)
        twice = [datetime.datetime(2026, 10, 25, 2, 30, tzinfo=berlin, fold=fold) for fold in (0, 1)]
        with self.refuses(ValueError, "row 2, column 'at' (time(Europe/Berlin)): 2026-03-29 02:30:00", "the clocks of Europe/Berlin skip this time"):
            prefq.Frame.from_records([{"at": before}, {"at": skipped}])
        for zone in ("Europe/Berlin", "UTC"):
            with prefq.Frame.empty(["at"], {"at": f"time({zone})"}) as frame:
                with self.refuses(ValueError, "skip this time"):
                    frame.insert({"at": skipped})
                frame.insert_many([{"at": value} for value in (before, *twice)])
                self.assertEqual([row.at.timestamp() for row in frame.rows()], [value.timestamp() for value in (before, *twice)])

    @skip_without_pandas
    def test_a_skipped_time_beside_times_of_pandas(self):
        from zoneinfo import ZoneInfo
        with prefq.Frame.from_dataframe(pandas.DataFrame({"at": pandas.to_datetime(["2026-05-01"]).tz_localize("Europe/Berlin")})) as frame:
            with self.refuses(ValueError, "skip this time"):
                frame.insert({"at": datetime.datetime(2026, 3, 29, 2, 30, tzinfo=ZoneInfo("Europe/Berlin"))})
            self.assertEqual(len(frame), 1)

    @skip_without_pandas
    def test_times_of_pandas_beside_those_of_python(self):
        """The first have nanoseconds and the others microseconds: of both it is said that they are times."""
        for zone in (None, "UTC"):
            given = pandas.to_datetime(["2026-05-01 12:00:00.000000001", "2026-05-01 11:00", "2026-05-01 12:00", None]).tz_localize(zone)
            frame = pandas.DataFrame({"given": given, "noon": pandas.Series([datetime.datetime(2026, 5, 1, 12, tzinfo=zone and UTC)] * 4, dtype=object)})
            for condition, labels in [("given = noon", [2]), ("noon < given", [0]), ("noon <> given", [0, 1]), ("noon - given = 3600", [1]), ("given - noon = 1e-9", [0])]:
                with self.subTest(condition, zone=zone):
                    self.assertEqual(list(prefq.psel(frame, "empty()", where=condition).index), labels)
            self.assertEqual(list(prefq.psel(frame, "low(abs(given - noon))", top_level=3).index), [2, 0, 1])

    @skip_without_pandas
    def test_times_of_pytz_and_of_dateutil(self):
        """A zone of pytz that was not localised has an offset of its own, by which it is a moment."""
        import dateutil.tz
        import pytz
        berlin = pytz.timezone("Europe/Berlin")
        some = [berlin.localize(datetime.datetime(2026, 10, 25, 2, 30), is_dst=is_dst) for is_dst in (True, False)] + [datetime.datetime(2026, 5, 1, tzinfo=berlin)]
        some += [datetime.datetime(2026, 10, 25, 2, 30, fold=fold, tzinfo=dateutil.tz.gettz("Europe/Berlin")) for fold in (0, 1)]
        with prefq.Frame.from_records([{"at": value} for value in some]) as frame:
            self.assertEqual([row.at.timestamp() for row in frame.rows()], [value.timestamp() for value in some])

    @skip_without_pandas
    def test_a_zone_of_pytz_is_one_in_summer_and_in_winter(self):
        """It has another object for each of its offsets, as of several zones, whose times a question would name in UTC."""
        import pytz
        berlin = pytz.timezone("Europe/Berlin")
        some = [berlin.localize(datetime.datetime(2026, month, 1, 12)) for month in (1, 7)]
        for values in (some, some[::-1], list(map(pandas.Timestamp, some))):
            with prefq.Frame.from_records([{"at": value} for value in values]) as frame:
                self.assertEqual((str(frame.columns[0].kind), [str(row.at) for row in frame.rows()]), ("time(Europe/Berlin)", list(map(str, values))))
                self.assertEqual(frame.best("best empty()", where="at = '2026-07-01 12:00'").ids, [1 + values.index(some[1])])


@skip_without_pandas
class TimesOfNumpy(TestCase):
    def test_parts_of_a_nanosecond_and_years_beyond_are_refused(self):
        with prefq.Frame.from_dataframe(pandas.DataFrame({"at": pandas.to_datetime(["2026-05-01"])})) as frame:
            for text, unit in [("2026-01-01T00:00:00.0000000001", "ps"), ("1970-01-01T00:00:00.0000000000000001", "as"), ("3000-01-01", "D"), ("1600-01-01", "s"), ("9999", "Y")]:
                with self.subTest(text=text), self.refuses(ValueError, "column 'at' (time)", "has parts of a nanosecond, or lies outside the years 1677 to 2262"):
                    frame.insert({"at": numpy.datetime64(text, unit)})
            taken = [numpy.datetime64("2026-01-01T00:00:00.000000001"), numpy.datetime64("2026", "Y"), numpy.datetime64("1970-01-01T00:00:00.000000001", "ps"), numpy.datetime64("NaT")]
            ids = frame.insert_many([{"at": value} for value in taken])
            found = [frame.get(id).at for id in ids]
            self.assertEqual((found[:3], found[3]), (list(map(pandas.Timestamp, ["2026-01-01 00:00:00.000000001", "2026-01-01", "1970-01-01 00:00:00.000000001"])), None))


class TextsOfFormats(TestCase):
    TAKEN = [('date("%d%m%Y")', "01052026", "2026-05-01"), ('date("%Y%m%d")', "20260115", "2026-01-15"), ('date("%d%m%y")', "010526", "2026-05-01"), ('date("%d%m%y")', "01052026", "2026-05-01"),
             ('date("%d.%m.%Y")', " 1.5.2026", "2026-05-01"), ('date("%d.%m.%Y")', "01.05.0069", "0069-05-01"), ('date("%d.%m.%y")', "1.5.69", "1969-05-01"), ('date("%d %b %Y")', "1 may 2026", "2026-05-01"),
             ('date("%A, %d.%m.%Y")', "friday,  1.5.2026", "2026-05-01"), ('date("%d.%m.%Y %j")', "1.5.2026 121", "2026-05-01"), ('date("%d.%m.%Y%%Y")', "1.5.2026%Y", "2026-05-01"),
             ('date("%d.%m.%y (%Y)")', "01.05.26 (2026)", "2026-05-01"),
             ('time("%d.%m.%Y %I:%M %p")', "1.5.2026 1:30 pm", "2026-05-01 13:30:00"), ('time("%d.%m.%Y %I:%M %p")', "01.05.2026 12:05 AM", "2026-05-01 00:05:00"),
             ('time("%d.%m.%Y %H:%M %p")', "01.05.2026 13:30 PM", "2026-05-01 13:30:00"), ('time("%Y%m%d%H%M%S")', "20260501013005", "2026-05-01 01:30:05"),
             ('time("%d.%m.%Y %H:%M:%S.%f")', "1.5.2026 1:30:05.05", "2026-05-01 01:30:05.050000"), ('time("%d.%m.%Y %H:%M:%S.%f")', "1.5.2026 1:30:05.000", "2026-05-01 01:30:05")]
    REFUSED = [('date("%d%m%Y")', ["1052026", "152026", "1112026"]), ('date("%Y%m%d")', ["2026115", "202611"]), ('date("%d%m%y")', ["11526", "1052026"]), ('date("%A, %d.%m.%Y")', ["Monday, 01.05.2026"]),
               ('date("%d.%m.%Y %j")', ["01.05.2026 001"]), ('date("%d.%m.%y (%Y)")', ["01.05.25 (2026)"]), ('time("%d.%m.%Y %H:%M %p")', ["01.05.2026 01:30 PM", "01.05.2026 13:30 AM"]),
               ('time("%Y%m%d%H%M%S")', ["2026050113305", "202605011335"]), ('time("%d.%m.%Y %H:%M%S.%f")', ["01.05.2026 13:305.5"])]

    def test_what_a_format_reads(self):
        for spelling, text, value in self.TAKEN:
            with self.subTest(kind=spelling, text=text):
                kind = kind_named(spelling)
                self.assertEqual(str(kind.decode(kind.read(text))), value)
                self.assertEqual(kind.read(kind.text(kind.decode(kind.read(text)))), kind.read(text))

    def test_a_text_that_may_mean_or_tells_of_another_moment_is_refused(self):
        """A spreadsheet drops the zero in front of 01052026, and strptime takes 1052026 for the tenth of May."""
        for spelling, texts in self.REFUSED:
            for text in texts:
                with self.subTest(kind=spelling, text=text), self.refuses(ValueError, f"{text!r} is no date"):
                    kind_named(spelling).read(text)

    def test_a_sign_that_stands_twice(self):
        with self.refuses(prefq.Refused, "the format '%d.%m.%Y %Y' cannot be read: redefinition of group name", kind="table"):
            kind_named('date("%d.%m.%Y %Y")')


class Moments(TestCase):
    def test_times_without_a_zone_are_those_that_the_clocks_show(self):
        """The clocks of Berlin, Kolkata and New York, by zones of pytz and of the system."""
        for zone, offset in [("Europe/Berlin", "+02:00"), ("Asia/Kolkata", "+05:30"), ("America/New_York", "-04:00"), ("Asia/Tokyo", "+09:00")]:
            for frame in frames_in(zone):
                with self.subTest(zone=zone), frame:
                    self.assertEqual(frame.best("best pos(at, '2026-07-01 09:00')").ids, [2])
                    self.assertEqual(frame.best("best between(at, '2026-07-01 08:00', '2026-07-01 09:00')").ids, [1, 2])
                    self.assertEqual(frame.best("best around(at, '2026-07-01 09:20')").ids, [2])
                    row = frame.get(frame.insert({"at": "2026-07-01 09:00", "v": 4}))
                    self.assertEqual((str(row.at), row.at == frame.get(2).at), (f"2026-07-01 09:00:00{offset}", True))

    def test_times_that_clocks_show_twice_or_skip(self):
        for frame in frames_in("Europe/Berlin"):
            with frame:
                for text, says in [("2026-10-25 02:30", "show this time twice: give its offset"), ("2026-03-29 02:30", "skip this time")]:
                    with self.refuses(ValueError, f"column 'at' (time(Europe/Berlin)): {text}:00 is no one moment", says):
                        frame.insert({"at": text})
                    with self.refuses(prefq.Refused, says, kind="term"):
                        frame.best(f"best around(at, '{text}')")
                found = [frame.get(frame.insert({"at": f"2026-10-25 02:30{offset}"})).at for offset in ("+02:00", "+01:00")]
                self.assertEqual((str(found[0]), str(found[1])), ("2026-10-25 02:30:00+02:00", "2026-10-25 02:30:00+01:00"))

    def test_moments_that_the_clocks_of_a_column_cannot_show(self):
        """Taken, they kept each call from its rows."""
        late, early = datetime.datetime(9999, 12, 31, 23, 30, tzinfo=UTC), datetime.datetime(1, 1, 1, 0, 30, tzinfo=UTC)
        for kind, value in [("time(Europe/Berlin)", late), ("time(UTC+02:00)", late), ("time(America/New_York)", early), ("time(UTC-00:31)", early)]:
            with self.subTest(kind=kind), prefq.Frame.empty(["at"], {"at": kind}) as frame:
                for given in (value, str(value)):
                    with self.refuses(ValueError, f"column 'at' ({kind}): {value} lies outside the years 1 to 9999 in the time zone of the column"):
                        frame.insert({"at": given})
                with self.refuses(ValueError, "line 2, column 'at'", "lies outside the years 1 to 9999 in the time zone of the column"):
                    prefq.Frame.from_csv(io.StringIO(f"at\n{value}\n"), kinds={"at": kind})
                near = value + datetime.timedelta(days=1 if value == early else -1)
                self.assertEqual(frame.get(frame.insert({"at": near})).at, near)
        with prefq.Frame.from_records([{"at": late}, {"at": early}]) as frame:
            self.assertEqual([row.at for row in frame.rows()], [late, early])

    def test_the_last_days_of_all_in_a_question(self):
        for frame in frames_in("Europe/Berlin"):
            with frame:
                for question in ("best around(at, '9999-12-31')", "best around(at, '9999-12-31 23:30')", "best between(at, '2026-07-01', '9999-12-31')", "best around(at, '0001-01-02')"):
                    with self.subTest(question=question):
                        self.assertTrue(frame.best(question).ids)
                with self.refuses(prefq.Refused, "lies outside the years 1 to 9999", kind="term"):
                    frame.best("best around(at, '0001-01-01')")

    def test_zones_of_classes_of_ones_own(self):
        """Without a time the first fails, and the second has the offset of winter, as those of Python's documentation; the third does not know of summer time."""
        hour = datetime.timedelta(hours=1)

        class Zone(datetime.tzinfo):
            def utcoffset(self, when):
                return hour + self.dst(when)

            def dst(self, when):
                return hour * (3 < when.month < 11)

        class Winter(Zone):
            def dst(self, when):
                return 0 * hour if when is None else super().dst(when)

        class Unknowing(datetime.tzinfo):
            def utcoffset(self, when):
                return hour

            def dst(self, when):
                return None

        winter, summer = datetime.datetime(2026, 1, 1), datetime.datetime(2026, 7, 1)
        for made in (Zone, Winter, Unknowing):
            zones, fixed = (made(), made()), datetime.timezone(hour)
            for values in ([winter.replace(tzinfo=zones[0]), summer.replace(tzinfo=zones[0])], [winter.replace(tzinfo=zones[0]), summer.replace(tzinfo=zones[1])],
                           [winter.replace(tzinfo=fixed), summer.replace(tzinfo=zones[0])]):
                with self.subTest(zone=made.__name__, values=values), prefq.Frame.from_records([{"at": value} for value in values]) as frame:
                    self.assertEqual([row.at for row in frame.rows()], values)
                    self.assertNotEqual((made is Unknowing, str(frame.columns[0].kind)), (False, "time(UTC+01:00)"))

    def test_a_zone_without_an_offset(self):
        """Python takes such a time for one of the computer's own zone, so that it was another moment on each."""
        class Zone(datetime.tzinfo):
            def utcoffset(self, when):
                return None

        noon = datetime.datetime(2026, 5, 1, 12, tzinfo=Zone())
        with self.refuses(ValueError, "row 2, column 'at' (time(UTC)): 2026-05-01 12:00:00 is no moment", "says no offset"):
            prefq.Frame.from_records([{"at": noon.replace(tzinfo=UTC)}, {"at": noon}])
        with self.refuses(ValueError, "says no offset"):
            prefq.around("at", noon)

    def test_an_interruption_in_a_zone_of_ones_own_is_no_answer_of_it(self):
        class Zone(datetime.tzinfo):
            def utcoffset(self, when):
                if when is None or when.year == 1900:
                    raise TimeoutError("half a second is over")
                return datetime.timedelta()

            def dst(self, when):
                return datetime.timedelta()

        with self.assertRaises(TimeoutError):
            prefq.Frame.from_records([{"at": datetime.datetime(2026, 5, day, tzinfo=Zone())} for day in (1, 2)])

    def test_what_a_format_reads_is_no_other_date(self):
        for spelling, text, value in [('date("%Y-%d-%m")', "2026-05-01", datetime.date(2026, 1, 5)), ('time("%Y-%d-%m %H:%M")', "2026-05-01 10:00", datetime.datetime(2026, 1, 5, 10)),
                                      ('time("%Y-%m-%d %H:%M")', "2026-05-01 10:00:05", datetime.datetime(2026, 5, 1, 10, 0, 5)), ('date("%d.%m.%y")', "01.05.2026", datetime.date(2026, 5, 1)),
                                      ('date("%d.%m.%Y %H:%M")', "01.05.2026 00:00", datetime.date(2026, 5, 1))]:
            with self.subTest(spelling=spelling):
                kind = kind_named(spelling)
                self.assertEqual(kind.decode(kind.read(text)), value)
        for spelling, text, says in [('time("%Y-%d-%m %H:%M")', "2026-05-13 10:00", "is no date with a time such as"), ('date("%d.%m.%Y %H:%M")', "01.05.2026 17:30", "has a time of day beside its date"),
                                     ("clock", "17:30.5", "is no time of day"), ("time", "2026-05-01 17:30.5", "is no date with a time")]:
            with self.subTest(spelling=spelling), self.refuses(ValueError, says):
                kind_named(spelling).read(text)

    def test_years_beyond_those_of_pandas_in_a_question(self):
        if pandas is None:
            self.skipTest("pandas is not installed")
        dataframe = pandas.DataFrame({"end": pandas.to_datetime(["2026-05-01", "2026-07-01", None]), "x": [1, 2, 3]})
        with prefq.Frame.from_dataframe(dataframe) as frame, warnings.catch_warnings():
            warnings.simplefilter("ignore", prefq.UnknownValue)
            for question, ids in [("best around(end, '9999-12-31')", [2]), ("best around(end, '0001-01-01')", [1]), ("best pos(end, '9999-12-31')", [1, 2, 3]),
                                  ("best between(end, '0001-01-01', '9999-12-31')", [1, 2]), ("best layered(end, {'9999-12-31'}, {'2026-07-01'})", [2])]:
                with self.subTest(question=question):
                    self.assertEqual((frame.best(question).ids, [label + 1 for label in prefq.psel(dataframe, question).index]), (ids, ids))
            with self.refuses(ValueError, "lies outside the years 1677 to 2262"):
                frame.insert({"end": "9999-12-31"})
