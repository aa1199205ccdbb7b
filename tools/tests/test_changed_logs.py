"""Tests of the changes of docs/CHANGED_LOGS.md."""
from tools import changed_logs


class TestChangedLogs:
    ROW = "sat G09 1 2 3 4 5 6 7 8 -9 10"

    def test_each_number_of_a_row_goes_up_and_down(self):
        for row, count in ((self.ROW, 11), (self.ROW + " -8 9", 13)):
            changes = list(changed_logs.number_changes([row]))
            assert len(changes) == 2 * count
            assert len({(field, way) for _, field, way, _ in changes}) == 2 * count
        assert changes[-2:] == [
            ("sat", "sure hi", "up", [self.ROW + " -8 10"]),
            ("sat", "sure hi", "down", [self.ROW + " -8 8"]),
        ]

    def test_a_satellite_keeps_its_system(self):
        assert [lines for *_, lines in changed_logs.number_changes(["skip E09 3"])] == [
            ["skip E10 3"],
            ["skip E08 3"],
            ["skip E09 4"],
            ["skip E09 2"],
        ]

    def test_a_skip_with_a_field_has_its_reason_changed(self):
        assert [lines for *_, lines in changed_logs.number_changes(["skip G09 6 2"])] == [
            ["skip G10 6 2"],
            ["skip G08 6 2"],
            ["skip G09 7 2"],
            ["skip G09 5 2"],
        ]
