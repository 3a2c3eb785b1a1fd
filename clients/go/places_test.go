package pathclient

import (
	"os"
	"strings"
	"testing"
)

// TestPlaces goes over the texts of the table that has no other bytes than those that stand there.
func TestPlaces(t *testing.T) {
	table, err := os.ReadFile("../../tests/mistakes.cases")
	if err != nil {
		t.Skip("the table of mistakes is not here")
	}
	tried := 0
	for _, line := range strings.Split(string(table), "\n") {
		row := strings.Split(line, "\t")
		if len(row) < 4 || row[0] != "NotJson" || strings.Contains(row[3], "`") {
			continue
		}
		place := FindPlace([]byte(row[3]), row[0])
		if place == nil {
			t.Fatalf("no place: %q", row[3])
		}
		want(t, row[3], row[2], place.Expected)
		tried++
	}
	want(t, "so many texts", true, tried > 100)
}

func TestPlacesOfOtherRefusals(t *testing.T) {
	for _, row := range [][3]string{
		{"NotUtf8", "{\"a\":\n\"\xe9\"}", "line 2, column 2 (byte 7): expected UTF-8, found byte 0xe9"},
		{"TooDeep", strings.Repeat("[", 257) + strings.Repeat("]", 257), "line 1, column 257 (byte 256): level 257, at most 256 are read"},
		{"NumberLimit", "[0.5,1e1000000000,1e9999999999]", "line 1, column 6 (byte 5): a number of more than 256 bytes, or with an exponent above 999999999"},
		{"LoneSurrogate", `["é\ud83d\ude00\ude00"]`, "line 1, column 16 (byte 16): a surrogate without its partner"},
		{"DuplicateName", `{"b":{"a":1,"b":2},"\u0062":2}`, `line 1, column 20 (byte 19): the name "\u0062" again, first at line 1, column 2 (byte 1)`},
		{"NotJson", "{\"a\": 1,\n \"b\": 2,\n}", "line 3, column 1 (byte 18): expected a name in double quotes, found '}'"},
	} {
		place := FindPlace([]byte(row[1]), row[0])
		if place == nil {
			t.Fatalf("no place: %s", row[0])
		}
		want(t, row[0], row[2], place.String())
	}
	for _, name := range []string{"NotUtf8", "NotJson", "TooDeep", "NumberLimit", "LoneSurrogate", "DuplicateName", "NotFound"} {
		want(t, name, true, FindPlace([]byte(`{"a":[1,{"a":"\ud83d\ude00"}]}`), name) == nil)
	}
	refused := *NotJson
	refused.text = []byte("[1,]")
	want(t, "a message", "NotJson: the text is not JSON (RFC 8259)\nline 1, column 4 (byte 3): expected a value, found ']'", refused.Error())
}
