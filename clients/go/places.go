package pathclient

import (
	"bytes"
	"fmt"
	"math/big"
	"regexp"
	"strings"
	"unicode/utf16"
	"unicode/utf8"
)

const depthLimit = 256

var exponent = regexp.MustCompile(`[eE][+-]?([0-9]+)`)

// Place is where a text is refused: the bytes before it, its line and column from 1 (a column is a character), what is said of it, and what may stand
// there, if something else was found.
type Place struct {
	Byte, Line, Column int
	Message, Expected  string
}

func (it *Place) String() string {
	return fmt.Sprintf("%s: %s", it.spot(), it.Message)
}

func (it *Place) spot() string {
	return fmt.Sprintf("line %d, column %d (byte %d)", it.Line, it.Column, it.Byte)
}

func placeAt(text []byte, at int, message, expected string) *Place {
	front := text[:at]
	line := front[bytes.LastIndexByte(front, '\n')+1:]
	return &Place{at, bytes.Count(front, []byte("\n")) + 1, utf8.RuneCount(line) + 1, message, expected}
}

func foundAt(text []byte, at int) string {
	switch {
	case at >= len(text):
		return "the end of the text"
	case text[at] >= 0x20 && text[at] < 0x7F:
		return "'" + string(text[at:at+1]) + "'"
	}
	return fmt.Sprintf("byte 0x%02x", text[at])
}

// FindPlace finds where a text is refused for the reason with this name, such as "NotJson". It gives nil if it is not, or where there is no place.
func FindPlace(text []byte, name string) *Place {
	front := 0
	for front < len(text) {
		letter, size := utf8.DecodeRune(text[front:])
		if letter == utf8.RuneError && size < 2 {
			if name != "NotUtf8" {
				return nil
			}
			return placeAt(text, front, "expected UTF-8, found "+foundAt(text, front), "UTF-8")
		}
		front += size
	}
	it := walk{text: text, sought: name}
	it.run()
	if it.wants != "" && name == "NotJson" {
		return placeAt(text, it.at, "expected "+it.wants+", found "+foundAt(text, it.at), it.wants)
	}
	return it.found
}

// walk goes over the tokens of a text up to the place that is sought, or to the byte that cannot stand, where wants says what can.
type walk struct {
	text   []byte
	sought string
	at     int
	wants  string
	closes []byte
	names  []map[string]int
	found  *Place
}

func (it *walk) sign() byte {
	if it.at < len(it.text) {
		return it.text[it.at]
	}
	return 0
}

func (it *walk) run() {
	now := "a value"
	for now != "" && it.found == nil {
		for it.at < len(it.text) && strings.IndexByte(" \t\n\r", it.text[it.at]) >= 0 {
			it.at++
		}
		now = it.step(now, it.sign())
	}
}

// step takes a token and gives what may come next; "" at the end.
func (it *walk) step(now string, sign byte) string {
	const firstValue, firstName = "a value or ']'", "a name in double quotes or '}'"
	isIn := len(it.closes) > 0
	switch {
	case now == "behind" && !isIn:
		if it.at < len(it.text) {
			it.wants = "the end of the text"
		}
		return ""
	case now == "behind" && sign == ',':
		it.at++
		if it.closes[len(it.closes)-1] == ']' {
			return "a value"
		}
		return "a name in double quotes"
	case now == "behind" && sign == it.closes[len(it.closes)-1], now == firstValue && sign == ']', now == firstName && sign == '}':
		it.at++
		it.closes, it.names = it.closes[:len(it.closes)-1], it.names[:len(it.names)-1]
		return "behind"
	case now == "behind":
		it.wants = "',' or '" + string(it.closes[len(it.closes)-1]) + "'"
		return ""
	case now == "':'" && sign == ':':
		it.at++
		return "a value"
	case strings.HasPrefix(now, "a value") && (sign == '[' || sign == '{'):
		return it.open(sign, firstValue, firstName)
	case strings.HasPrefix(now, "a value"):
		return it.scalar(now, sign)
	case strings.HasPrefix(now, "a name") && sign == '"':
		return it.quoted(true, "':'")
	}
	it.wants = now
	return ""
}

func (it *walk) open(sign byte, firstValue, firstName string) string {
	it.names = append(it.names, map[string]int{})
	if it.sought == "TooDeep" && len(it.names) > depthLimit {
		it.found = placeAt(it.text, it.at, fmt.Sprintf("level %d, at most %d are read", depthLimit+1, depthLimit), "")
	}
	it.at++
	it.closes = append(it.closes, sign+2)
	if sign == '[' {
		return firstValue
	}
	return firstName
}

func (it *walk) scalar(now string, sign byte) string {
	if sign == '"' {
		return it.quoted(false, "behind")
	}
	for _, word := range []string{"true", "false", "null"} {
		for more := 0; sign == word[0]; more++ {
			if more == len(word) {
				return "behind"
			}
			if it.sign() != word[more] {
				it.wants = "'" + word[more:more+1] + "'"
				return ""
			}
			it.at++
		}
	}
	start := it.at
	if sign == '-' {
		it.at++
	} else if sign < '0' || sign > '9' {
		it.wants = now
		return ""
	}
	if !it.number() {
		it.wants = "a digit"
		return ""
	}
	if number := it.text[start:it.at]; it.sought == "NumberLimit" && isBeyond(number) {
		it.found = placeAt(it.text, start, "a number of more than 256 bytes, or with an exponent above 999999999", "")
	}
	return "behind"
}

func (it *walk) digits() bool {
	start := it.at
	for it.sign() >= '0' && it.sign() <= '9' {
		it.at++
	}
	return it.at > start
}

// number passes a number behind its sign, and says whether it is whole.
func (it *walk) number() bool {
	if it.sign() == '0' {
		it.at++
	} else if !it.digits() {
		return false
	}
	if it.sign() == '.' {
		it.at++
		if !it.digits() {
			return false
		}
	}
	if it.sign()|0x20 == 'e' {
		it.at++
		if it.sign() == '+' || it.sign() == '-' {
			it.at++
		}
		return it.digits()
	}
	return true
}

func isBeyond(number []byte) bool {
	found := exponent.FindSubmatch(number)
	if len(number) > 256 || found == nil {
		return len(number) > 256
	}
	value, _ := new(big.Int).SetString(string(found[1]), 10)
	return value.Cmp(big.NewInt(999_999_999)) > 0
}

// quoted passes a string, and looks at what it means.
func (it *walk) quoted(isName bool, next string) string {
	start := it.at
	it.at++
	var units []uint16
	var places []int
	for it.sign() != '"' || it.at >= len(it.text) {
		if it.sign() < 0x20 {
			it.wants = "a character or '\"'"
			return ""
		}
		places = append(places, it.at)
		made := it.letter()
		if it.wants != "" {
			return ""
		}
		units = append(units, made...)
		for len(places) < len(units) {
			places = append(places, places[len(places)-1])
		}
	}
	it.at++
	if it.sought == "LoneSurrogate" {
		if lone := loneOf(units); lone >= 0 {
			it.found = placeAt(it.text, places[lone], "a surrogate without its partner", "")
		}
	}
	if isName && it.sought == "DuplicateName" {
		it.named(start, fmt.Sprint(units))
	}
	return next
}

func (it *walk) named(start int, meaning string) {
	seen := it.names[len(it.names)-1]
	if before, ok := seen[meaning]; ok {
		first := placeAt(it.text, before, "", "").spot()
		it.found = placeAt(it.text, start, fmt.Sprintf("the name %s again, first at %s", it.text[start:it.at], first), "")
	}
	seen[meaning] = start
}

// letter passes a character of a string, and gives what it means.
func (it *walk) letter() []uint16 {
	if it.sign() != '\\' {
		letter, size := utf8.DecodeRune(it.text[it.at:])
		it.at += size
		return utf16.Encode([]rune{letter})
	}
	it.at++
	sign := it.sign()
	if at := strings.IndexByte("\"\\/bfnrt", sign); at >= 0 && it.at < len(it.text) {
		it.at++
		return []uint16{uint16("\"\\/\b\f\n\r\t"[at])}
	}
	if sign != 'u' {
		it.wants = "an escape"
		return nil
	}
	it.at++
	unit := uint16(0)
	for range [4]int{} {
		digit := strings.IndexByte("0123456789abcdef", it.sign()|0x20)
		if digit < 0 || it.sign() < '0' {
			it.wants = "four hexadecimal digits"
			return nil
		}
		unit = unit<<4 | uint16(digit)
		it.at++
	}
	return []uint16{unit}
}

// loneOf gives the number of the first unit that is half of a pair alone, or -1.
func loneOf(units []uint16) int {
	for at := 0; at < len(units); at++ {
		isHigh, isLow := units[at]&0xFC00 == 0xD800, units[at]&0xFC00 == 0xDC00
		pairs := at+1 < len(units) && units[at+1]&0xFC00 == 0xDC00
		if isLow || isHigh && !pairs {
			return at
		}
		if isHigh {
			at++
		}
	}
	return -1
}
