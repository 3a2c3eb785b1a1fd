package pathclient

import (
	"bufio"
	"bytes"
	"context"
	"crypto/tls"
	"crypto/x509"
	"encoding/binary"
	"encoding/hex"
	"encoding/json"
	"errors"
	"fmt"
	"io"
	"net"
	"os"
	"os/exec"
	"path/filepath"
	"reflect"
	"regexp"
	"strings"
	"sync"
	"syscall"
	"testing"
	"time"
)

const program = "../../crates/path_program/out/path_program"

var (
	ctx = context.Background()
	key = bytes.Repeat([]byte{1}, 16)
)

// listen starts a server with one tenant, which ends once its standard input is closed.
func listen(t *testing.T) string {
	path := os.Getenv("PATH_SERVER")
	if path == "" {
		path = program
	}
	server := exec.Command(path, "listen", "127.0.0.1:0", hex.EncodeToString(key))
	input, _ := server.StdinPipe()
	output, _ := server.StdoutPipe()
	if err := server.Start(); err != nil {
		t.Fatal(err)
	}
	t.Cleanup(func() { input.Close(); server.Process.Kill(); server.Wait() })
	line, err := bufio.NewReader(output).ReadString('\n')
	if err != nil {
		t.Fatal(err)
	}
	return strings.TrimSpace(strings.TrimPrefix(line, "listening "))
}

func connected(t *testing.T, options Options) *Client {
	options.Key = key
	client, err := Connect(options)
	if err != nil {
		t.Fatal(err)
	}
	t.Cleanup(client.Close)
	return client
}

// peer gives each connection to serve, with a reader of the bodies of its requests, and closes it behind that.
func peer(t *testing.T, serve func(conn net.Conn, place int, next func() []byte)) string {
	listener, err := net.Listen("tcp", "127.0.0.1:0")
	if err != nil {
		t.Fatal(err)
	}
	t.Cleanup(func() { listener.Close() })
	go func() {
		for place := 0; ; place++ {
			conn, err := listener.Accept()
			if err != nil {
				return
			}
			go func(place int) {
				defer conn.Close()
				serve(conn, place, func() []byte {
					head := make([]byte, 4)
					if _, err := io.ReadFull(conn, head); err != nil {
						return nil
					}
					body := make([]byte, binary.BigEndian.Uint32(head))
					if _, err := io.ReadFull(conn, body); err != nil {
						return nil
					}
					return body
				})
			}(place)
		}
	}()
	return listener.Addr().String()
}

func ok(request, payload []byte) []byte {
	if request == nil {
		return nil
	}
	data := binary.BigEndian.AppendUint32(nil, uint32(5+len(payload)))
	return append(append(append(data, 0), request[1:5]...), payload...)
}

func want(t *testing.T, what string, wanted, got any) {
	t.Helper()
	if !reflect.DeepEqual(wanted, got) {
		t.Errorf("%s: wanted %#v, got %#v", what, wanted, got)
	}
}

func TestCommands(t *testing.T) {
	client := connected(t, Options{Address: listen(t)})
	text := []byte(`{"items": [{"name": "tea", "price": 4}, {"name": "pot", "price": 24.5}]}`)
	want(t, "put", nil, client.Put(ctx, "shop", "order-1", text))
	want(t, "put new", nil, client.PutNew(ctx, "shop", "order-2", []byte("[1]")))
	found, err := client.Get(ctx, "shop", "order-1")
	want(t, "get", text, found)
	want(t, "get", nil, err)
	hits, _ := client.Query(ctx, "shop", "$.items[?@.price<10].name")
	want(t, "query", []Hit{{"order-1", "$['items'][0]['name']", []byte(`"tea"`)}}, hits)
	names, _ := client.List(ctx, "shop")
	want(t, "list", []string{"order-1", "order-2"}, names)
	names, _ = client.Documents(ctx, "shop", "$.items[*]")
	want(t, "documents", []string{"order-1"}, names)
	usage, _ := client.Usage(ctx)
	want(t, "usage", Usage{1, 2, uint32(len(text) + 3)}, usage)
	want(t, "remove", nil, client.Remove(ctx, "shop", "order-2"))
	want(t, "put JSON", nil, client.PutJSON(ctx, "shop", "exact", map[string]any{"a": json.Number("9007199254740993")}))
	var value map[string]any
	want(t, "get JSON", nil, client.GetJSON(ctx, "shop", "exact", &value))
	want(t, "an exact number", json.Number("9007199254740993"), value["a"])
	want(t, "drop", nil, client.Drop(ctx, "shop"))
	names, _ = client.List(ctx, "shop")
	want(t, "an empty list", []string{}, names)
	if took, err := client.Ping(ctx); err != nil || took > 30*time.Second {
		t.Error(took, err)
	}
}

// TestValuesInQueries puts the JSON text of a value into a query, whatever is in it.
func TestValuesInQueries(t *testing.T) {
	client := connected(t, Options{Address: listen(t)})
	values := []any{"it's", `a "quote"`, `back\slash`, "', $..*", "\n\t\x00\x7f/<>&", "\u2028é\U0001f600", "", 4, -1.5e-7, 1e22, true, nil}
	for place, value := range values {
		want(t, "put", nil, client.PutJSON(ctx, "shop", fmt.Sprint(place), []any{value}))
	}
	for place, value := range values {
		text, _ := json.Marshal(value)
		found, err := client.Documents(ctx, "shop", fmt.Sprintf("$[?@==%s]", text))
		want(t, string(text), []any{[]string{fmt.Sprint(place)}, nil}, []any{found, err})
	}
}

func TestRefusals(t *testing.T) {
	client := connected(t, Options{Address: listen(t)})
	want(t, "put", nil, client.Put(ctx, "shop", "order-1", []byte("[1]")))
	get := func(document string) error { _, err := client.Get(ctx, "shop", document); return err }
	query := func(text string) error { _, err := client.Query(ctx, "shop", text); return err }
	for _, it := range []struct {
		err  error
		kind *Refused
	}{
		{client.Put(ctx, "shop", "order-1", []byte("{")), NotJson},
		{client.PutNew(ctx, "shop", "order-1", []byte("[]")), Exists},
		{get("order-2"), NotFound},
		{client.Drop(ctx, "more"), NotFound},
		{query("$["), NotWellFormed},
	} {
		want(t, it.kind.Name, true, errors.Is(it.err, it.kind))
		want(t, "and no other", false, errors.Is(it.err, TooLong))
	}
	want(t, "the words", "NotFound: there is no such document or collection (GET shop/order-2)", get("order-2").Error())
	for _, err := range []error{
		get(""), get(strings.Repeat("d", 129)), get("a b"), get("é"), query("$" + strings.Repeat(" ", QueryLimit)),
		client.Put(ctx, "shop", "order-1", make([]byte, TextLimit+1)),
	} {
		var invalid *Invalid
		want(t, "an invalid request", true, errors.As(err, &invalid))
	}
}

func TestSentences(t *testing.T) {
	rows, err := os.ReadFile("../../crates/protocol/src/statuses.rt")
	if err != nil {
		t.Fatal(err)
	}
	found := regexp.MustCompile(`(?m)^    \d+ "(\w+)" "([^"]*)";`).FindAllStringSubmatch(string(rows), -1)
	want(t, "rows", 24, len(found))
	for number, row := range found {
		if row[1] != "Ok" && row[1] != "Retired" {
			want(t, row[1], Refused{Status: byte(number), Name: row[1], Sentence: strings.TrimSuffix(row[2], " in ")}, *statuses[byte(number)])
		}
	}
}

func TestOptions(t *testing.T) {
	for _, address := range []string{"", "127.0.0.1", "127.0.0.1:0", "127.0.0.1:65536", ":7000", "http://127.0.0.1:7000", "127.0.0.1:http"} {
		var invalid *Invalid
		_, err := Connect(Options{Address: address, Key: key})
		want(t, address, true, errors.As(err, &invalid))
	}
	_, err := Connect(Options{Address: "127.0.0.1:1", Key: key[1:]})
	want(t, "a short key", "a key has 16 bytes, not 15: ReadKey makes them of 32 hexadecimal digits", err.Error())
	_, err = Connect(Options{Address: "127.0.0.1:1", Key: key, Timeout: -time.Second})
	want(t, "a negative timeout", "a timeout and a size are above 0, not -1s and 4", err.Error())
	_, err = Connect(Options{Key: key})
	want(t, "no address", "give the server's address, or set PATH_SERVER_AT", err.Error())
	var broken *Broken
	_, err = Connect(Options{Address: "127.0.0.1:1", Key: key})
	want(t, "no server", []bool{true, true}, []bool{errors.As(err, &broken), errors.Is(err, syscall.ECONNREFUSED)})
	path := filepath.Join(t.TempDir(), "acme.key")
	os.WriteFile(path, []byte(strings.ToUpper(hex.EncodeToString(key))+"\n"), 0o600)
	t.Setenv("PATH_SERVER_AT", listen(t))
	t.Setenv("PATH_SERVER_KEY_FILE", path)
	client, err := Connect(Options{})
	want(t, "the environment", nil, err)
	_, err = client.Usage(ctx)
	want(t, "a call", nil, err)
	client.Close()
	_, err = client.Usage(ctx)
	want(t, "a closed client", "the client is closed", err.Error())
}

func TestGoroutines(t *testing.T) {
	client := connected(t, Options{Address: listen(t)})
	requests := []Request{}
	for place := 0; place < 100; place++ {
		requests = append(requests, Put("c", fmt.Sprint(place), []byte(fmt.Sprint(place))))
	}
	if _, err := client.Pipeline(ctx, requests); err != nil {
		t.Fatal(err)
	}
	var all sync.WaitGroup
	for place := 0; place < 100; place++ {
		all.Add(1)
		go func(place int) {
			defer all.Done()
			for turn := 0; turn < 200; turn++ {
				name := fmt.Sprint((place + turn) % 100)
				if found, err := client.Get(ctx, "c", name); err != nil || string(found) != name {
					t.Errorf("%s: %q, %v", name, found, err)
				}
			}
		}(place)
	}
	all.Wait()
}

func TestPipeline(t *testing.T) {
	client := connected(t, Options{Address: listen(t)})
	var invalid *Invalid
	_, err := client.Pipeline(ctx, []Request{Put("c", "d", []byte("1")), {}})
	want(t, "a request that none of the functions made", true, errors.As(err, &invalid))
	values, err := client.Pipeline(ctx, []Request{PutJSON("c", "json", map[string]int{"a": 1}), Get("c", "json"), Get("c", "d")})
	want(t, "a value", []any{nil, `{"a":1}`, true}, []any{err, string(values[1].Value.([]byte)), errors.Is(values[2].Err, NotFound)})
	_, err = client.Pipeline(ctx, []Request{PutJSON("c", "none", make(chan int))})
	want(t, "a value that has no JSON", true, err != nil)
	text := []byte(`"` + strings.Repeat("x", 1_000_000) + `"`)
	requests := []Request{}
	for turn := 0; turn < 20; turn++ {
		requests = append(requests, Put("c", "large", text), Get("c", "large"), Get("c", "none"))
	}
	results, err := client.Pipeline(ctx, requests)
	want(t, "the pipeline", nil, err)
	for place, it := range results {
		switch place % 3 {
		case 0:
			want(t, "a put", Result{}, it)
		case 1:
			want(t, "a get", text, it.Value)
		case 2:
			want(t, "a refusal", true, errors.Is(it.Err, NotFound))
		}
	}
	lost := peer(t, func(conn net.Conn, _ int, next func() []byte) {
		for place := 0; place < 3; place++ {
			conn.Write(ok(next(), make([]byte, 12)))
		}
	})
	results, err = connected(t, Options{Address: lost}).Pipeline(ctx, []Request{Use(), Use(), Use(), Use(), Use()})
	var broken *Broken
	want(t, "a lost pipeline", true, errors.As(err, &broken) && broken.IsLost)
	want(t, "its results", 3, len(results))
	slow := peer(t, func(conn net.Conn, _ int, next func() []byte) {
		for request := next(); request != nil; request = next() {
			time.Sleep(150 * time.Millisecond)
			conn.Write(ok(request, make([]byte, 12)))
		}
	})
	results, err = connected(t, Options{Address: slow, Timeout: time.Second}).Pipeline(ctx, make10())
	want(t, "a timeout for each reply", nil, err)
	want(t, "its results", 10, len(results))
}

func make10() []Request {
	requests := make([]Request, 10)
	for place := range requests {
		requests[place] = Use()
	}
	return requests
}

func TestWhatIsSentAgain(t *testing.T) {
	for _, it := range []struct {
		call  func(*Client) error
		count int
	}{
		{func(it *Client) error { _, err := it.Usage(ctx); return err }, 2},
		{func(it *Client) error { return it.Drop(ctx, "c") }, 1},
		{func(it *Client) error { return it.Put(ctx, "c", "d", []byte("1")) }, 1},
	} {
		var count int
		var lock sync.Mutex
		address := peer(t, func(_ net.Conn, _ int, next func() []byte) {
			next()
			lock.Lock()
			count++
			lock.Unlock()
		})
		var broken *Broken
		err := it.call(connected(t, Options{Address: address}))
		want(t, "a lost connection", true, errors.As(err, &broken) && broken.IsLost)
		lock.Lock()
		want(t, "requests", it.count, count)
		lock.Unlock()
	}
	closing := peer(t, func(conn net.Conn, _ int, next func() []byte) { conn.Write(ok(next(), make([]byte, 12))) })
	client := connected(t, Options{Address: closing})
	for turn := 0; turn < 100; turn++ {
		if _, err := client.Usage(ctx); err != nil {
			t.Fatal(err)
		}
	}
}

func TestNonsenseAndSilence(t *testing.T) {
	frames := func(request []byte) [][]byte {
		other := append([]byte{0}, binary.BigEndian.AppendUint32(nil, binary.BigEndian.Uint32(request[1:])+1)...)
		refusal := ok(request, []byte{0})
		refusal[4] = 15
		return [][]byte{
			append([]byte{0, 0, 0, 5}, other...), {0, 0, 0, 4, 0, 0, 0, 0}, {0, 0x80, 0, 1}, {0, 0, 0, 5, 255, 0, 0, 0, 0}, refusal,
			ok(request, make([]byte, 11)), ok(request, make([]byte, 13)),
		}
	}
	for place := 0; place < 7; place++ {
		address := peer(t, func(conn net.Conn, _ int, next func() []byte) {
			request := next()
			for _, one := range frames(request)[place] {
				conn.Write([]byte{one})
			}
			next()
		})
		_, err := connected(t, Options{Address: address}).Usage(ctx)
		var broken *Broken
		want(t, fmt.Sprint("nonsense ", place), true, errors.As(err, &broken) && !broken.IsLost)
	}
	silent := peer(t, func(_ net.Conn, _ int, next func() []byte) {
		for next() != nil {
		}
	})
	_, err := connected(t, Options{Address: silent, Timeout: 100 * time.Millisecond}).Usage(ctx)
	var late net.Error
	want(t, "silence", "no answer in time", err.Error())
	want(t, "a timeout", true, errors.As(err, &late) && late.Timeout() && errors.Is(err, os.ErrDeadlineExceeded))
	short, cancel := context.WithTimeout(ctx, 100*time.Millisecond)
	defer cancel()
	_, err = connected(t, Options{Address: silent}).Usage(short)
	want(t, "a context", context.DeadlineExceeded, err)
	// what never shakes hands holds no call longer than its context, or than the timeout
	options, _ := checked(Options{Address: silent, Key: key, TLS: &tls.Config{}})
	opening := &Client{options: options, places: make(chan struct{}, 1)}
	begun, cancel := context.WithTimeout(ctx, 100*time.Millisecond)
	defer cancel()
	_, err = opening.Usage(begun)
	want(t, "a context of an opening", context.DeadlineExceeded, err)
	_, err = Connect(Options{Address: silent, Key: key, TLS: &tls.Config{}, Timeout: 100 * time.Millisecond})
	var broken *Broken
	want(t, "a timeout of an opening", true, errors.As(err, &broken) && broken.IsLate)
}

// TestTLS runs where tests/client_tls.py says where.
func TestTLS(t *testing.T) {
	folder := os.Getenv("PATH_TLS_FOLDER")
	if folder == "" {
		t.Skip("not run: there is no HAProxy")
	}
	authority, err := os.ReadFile(filepath.Join(folder, "ca.crt"))
	if err != nil {
		t.Fatal(err)
	}
	own, err := tls.LoadX509KeyPair(filepath.Join(folder, "acme-web.crt"), filepath.Join(folder, "acme-web.key"))
	if err != nil {
		t.Fatal(err)
	}
	pool := x509.NewCertPool()
	pool.AppendCertsFromPEM(authority)
	client, err := Connect(Options{TLS: &tls.Config{RootCAs: pool, Certificates: []tls.Certificate{own}}})
	if err != nil {
		t.Fatal(err)
	}
	text := []byte(`"` + strings.Repeat("x", 4_000_000) + `"`)
	for turn := 0; turn < 3; turn++ {
		want(t, "put", nil, client.Put(ctx, "go", "large", text))
		found, err := client.Get(ctx, "go", "large")
		want(t, "get", true, err == nil && bytes.Equal(found, text))
	}
	want(t, "drop", nil, client.Drop(ctx, "go"))
	_, err = Connect(Options{TLS: &tls.Config{Certificates: []tls.Certificate{own}}})
	want(t, "another authority", true, err != nil)
}
