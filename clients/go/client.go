// Package pathclient is a client of path_server, the in-memory JSON document server for many tenants.
//
//	client, err := pathclient.Connect(pathclient.Options{Address: "127.0.0.1:7000", KeyFile: "acme.key"})
//	err = client.Put(ctx, "shop", "order-1", []byte(`{"items": [{"name": "tea", "price": 4}]}`))
//	hits, err := client.Query(ctx, "shop", "$.items[?@.price<10].name")
//
// Goroutines may share a client: each call takes one of its connections for itself. A call ends with *Refused if the server answers with a status
// other than Ok (errors.Is(err, pathclient.NotFound)), with *Invalid if the request is invalid (nothing was sent), and with *Broken if the
// connection was lost, no reply came in time, or what came is no reply (the request may have been carried out). If its context ends first, it ends
// with the context's error (the request may have been carried out). A call that only reads is sent again once if its connection is lost. What
// writes is never sent again.
package pathclient

import (
	"bytes"
	"context"
	"crypto/rand"
	"crypto/tls"
	"encoding/binary"
	"encoding/hex"
	"encoding/json"
	"errors"
	"fmt"
	"io"
	"net"
	"os"
	"strconv"
	"strings"
	"sync"
	"sync/atomic"
	"syscall"
	"time"
	"unicode/utf8"
)

// Limits of the protocol, in bytes.
const (
	TextLimit       = 4_194_304
	QueryLimit      = 4_096
	CollectionLimit = 64
	DocumentLimit   = 128
	replyLimit      = 8_388_608
	// the longest text whose place stands in the message too
	toldBytes = 65_536
)

// Refused is the error of a call that the server answered with a status other than Ok.
type Refused struct {
	Status                        byte
	Name, Sentence                string
	Command, Collection, Document string
	text                          []byte
}

// Place is where the text that was put is refused, or nil. In a text of megabytes, finding it takes a moment.
func (it *Refused) Place() *Place {
	return FindPlace(it.text, it.Name)
}

func (it *Refused) Error() string {
	about := strings.TrimSpace(it.Command + " " + strings.Trim(it.Collection+"/"+it.Document, "/"))
	if about != "" {
		about = " (" + about + ")"
	}
	if len(it.text) <= toldBytes {
		if place := it.Place(); place != nil {
			about += "\n" + place.String()
		}
	}
	return it.Name + ": " + it.Sentence + about
}

// Is says whether the target is the refusal of the same status, so that errors.Is(err, NotFound) works.
func (it *Refused) Is(target error) bool {
	other, ok := target.(*Refused)
	return ok && other.Status == it.Status
}

// The refusals, for errors.Is.
var (
	Short              = status(1, "Short", "server and client disagree about the protocol: use the same version of both")
	NoTenant           = status(2, "NoTenant", "the server has no tenant with the key")
	BadCommand         = status(3, "BadCommand", "the server is older than this client")
	BadFields          = status(4, "BadFields", "server and client disagree about names: use the same version of both")
	TooLong            = status(5, "TooLong", "a text has at most 4194304 bytes")
	NotUtf8            = status(6, "NotUtf8", "the text is not UTF-8")
	NotJson            = status(7, "NotJson", "the text is not JSON (RFC 8259)")
	TooDeep            = status(8, "TooDeep", "a text has at most 256 levels of arrays and objects")
	NumberLimit        = status(9, "NumberLimit", "a number has at most 256 bytes, and an exponent up to 999999999")
	LoneSurrogate      = status(10, "LoneSurrogate", "an escape has half of a surrogate pair alone")
	DuplicateName      = status(11, "DuplicateName", "an object has the same name twice")
	TooManyCollections = status(12, "TooManyCollections", "a tenant has at most 16 collections: drop one")
	TooManyDocuments   = status(13, "TooManyDocuments", "a tenant has at most 1000 documents: remove some")
	TooManyBytes       = status(14, "TooManyBytes", "a tenant's texts have at most 16777216 bytes together: remove some")
	NotFound           = status(15, "NotFound", "there is no such document or collection")
	QueryTooLong       = status(16, "QueryTooLong", "a query has at most 4096 bytes")
	NotWellFormed      = status(17, "NotWellFormed", "the query is not well-formed (RFC 9535, section 2.1)")
	NotValid           = status(18, "NotValid", "the query is not valid (RFC 9535, section 2.1)")
	ReplyTooLarge      = status(20, "ReplyTooLarge", "the reply would have more than 8388608 bytes: ask for fewer hits")
	NoMemory           = status(21, "NoMemory", "the server ran out of memory and changed nothing: try again")
	Costly             = status(22, "Costly", "the query costs more than 10000000 units: ask for less")
	Exists             = status(23, "Exists", "the document exists: put replaces it")
)

var statuses = map[byte]*Refused{}

func status(number byte, name, sentence string) *Refused {
	found := &Refused{Status: number, Name: name, Sentence: sentence}
	statuses[number] = found
	return found
}

// Invalid is the error of a request that was not sent: a name with another character, a text or a query above its limit.
type Invalid struct{ Why string }

func (it *Invalid) Error() string { return it.Why }

// Broken is the error of a call whose reply did not come: the request may have been carried out. Connect gives it if no server answers.
type Broken struct {
	Why string
	// IsLost: the connection ended before the reply.
	IsLost bool
	// IsLate: no reply came in time.
	IsLate bool
	cause  error
}

func (it *Broken) Error() string { return it.Why }

// Unwrap gives what the network said, if it said something, so that errors.Is(err, os.ErrDeadlineExceeded) works and errors.As finds a net.Error.
func (it *Broken) Unwrap() error { return it.cause }

// Hit is a hit of a query: the document's name, the normalized path, and the value's bytes as they stand in the text.
type Hit struct {
	Document, Path string
	Value          []byte
}

// Usage is what a tenant keeps.
type Usage struct{ Collections, Documents, Bytes uint32 }

// Request is a command with its fields, for Pipeline.
type Request struct {
	code                 byte
	command              string
	collection, document string
	fields               []byte
	text                 []byte
	isRead               bool
	read                 func(*payload) any
	fault                error
}

func command(code byte, name string, isRead bool, read func(*payload) any) Request {
	return Request{code: code, command: name, isRead: isRead, read: read}
}

func (it Request) of(collection string) Request {
	it.collection = collection
	return it.named("collection", collection, CollectionLimit)
}

func (it Request) at(document string) Request {
	it.document = document
	return it.named("document", document, DocumentLimit)
}

func (it Request) named(what, name string, limit int) Request {
	isName := len(name) >= 1 && len(name) <= limit
	for _, letter := range []byte(name) {
		isLetter := letter >= 'A' && letter <= 'Z' || letter >= 'a' && letter <= 'z' || letter >= '0' && letter <= '9'
		isName = isName && (isLetter || strings.IndexByte("._-", letter) >= 0)
	}
	if !isName && it.fault == nil {
		it.fault = &Invalid{fmt.Sprintf("the name of a %s has 1 to %d ASCII letters, digits, '.', '-' or '_', not %q", what, limit, name)}
	}
	it.fields = append(append(it.fields, byte(len(name))), name...)
	return it
}

// check says why a request may not be sent.
func (it Request) check() error {
	if it.read == nil {
		return &Invalid{"a request is made by Put, Get or another function of the package"}
	}
	return it.fault
}

func (it Request) with(what string, data []byte, limit int) Request {
	if len(data) > limit && it.fault == nil {
		it.fault = &Invalid{fmt.Sprintf("a %s has at most %d bytes, not %d", what, limit, len(data))}
	}
	it.fields = append(it.fields, data...)
	if what == "text" {
		it.text = it.fields[len(it.fields)-len(data):]
	}
	return it
}

// Put keeps a JSON text under a collection and a document, in the place of one that is there.
func Put(collection, document string, text []byte) Request {
	return command(1, "PUT", false, readNothing).of(collection).at(document).with("text", text, TextLimit)
}

// PutJSON keeps the JSON text of a value.
func PutJSON(collection, document string, value any) Request {
	text, err := json.Marshal(value)
	found := Put(collection, document, text)
	if err != nil {
		found.fault = err
	}
	return found
}

// PutNew keeps a JSON text where no document is there; the refusal is Exists.
func PutNew(collection, document string, text []byte) Request {
	return command(8, "PUT_NEW", false, readNothing).of(collection).at(document).with("text", text, TextLimit)
}

// Get gives the text of a document, as []byte.
func Get(collection, document string) Request {
	return command(2, "GET", true, func(it *payload) any { return it.take(len(it.rest)) }).of(collection).at(document)
}

// Remove removes a document.
func Remove(collection, document string) Request {
	return command(3, "REMOVE", false, readNothing).of(collection).at(document)
}

// List gives the names of a collection's documents, as []string.
func List(collection string) Request { return command(4, "LIST", true, readNames).of(collection) }

// Query gives the hits of a JSONPath query (RFC 9535) in each document of a collection, as []Hit.
func Query(collection, query string) Request {
	return command(5, "QUERY", true, readHits).of(collection).with("query", []byte(query), QueryLimit)
}

// Documents gives the names of the documents in which a query has a hit, each once, as []string.
func Documents(collection, query string) Request {
	return command(5, "QUERY", true, readDocuments).of(collection).with("query", []byte(query), QueryLimit)
}

// Drop removes a collection with all its documents.
func Drop(collection string) Request { return command(6, "DROP", false, readNothing).of(collection) }

// Use gives what the tenant keeps, as Usage.
func Use() Request { return command(7, "USAGE", true, readUsage) }

// payload reads the fields of a reply from the front. What does not fit sets isBad.
type payload struct {
	rest  []byte
	isBad bool
}

func (it *payload) take(count int) []byte {
	if count > len(it.rest) {
		it.isBad, it.rest = true, nil
		return nil
	}
	found := it.rest[:count:count]
	it.rest = it.rest[count:]
	return found
}

func (it *payload) number() int {
	data := it.take(4)
	if it.isBad {
		return 0
	}
	return int(binary.BigEndian.Uint32(data))
}

func (it *payload) text(count int) string {
	data := it.take(count)
	it.isBad = it.isBad || !utf8.Valid(data)
	return string(data)
}

func (it *payload) name() string {
	length := it.take(1)
	if it.isBad {
		return ""
	}
	return it.text(int(length[0]))
}

func readNothing(*payload) any { return nil }

func readNames(it *payload) any {
	names := []string{}
	for left := it.number(); left > 0 && !it.isBad; left-- {
		names = append(names, it.name())
	}
	return names
}

func readHits(it *payload) any {
	hits := []Hit{}
	for left := it.number(); left > 0 && !it.isBad; left-- {
		hits = append(hits, Hit{it.name(), it.text(it.number()), it.take(it.number())})
	}
	return hits
}

func readDocuments(it *payload) any {
	names := []string{}
	for left := it.number(); left > 0 && !it.isBad; left-- {
		name := it.name()
		if len(names) == 0 || names[len(names)-1] != name {
			names = append(names, name)
		}
		it.take(it.number())
		it.take(it.number())
	}
	return names
}

func readUsage(it *payload) any {
	return Usage{uint32(it.number()), uint32(it.number()), uint32(it.number())}
}

// Options say what a client is opened with.
type Options struct {
	// Address is HOST:PORT. Default: PATH_SERVER_AT.
	Address string
	// Key has 16 bytes. Default: the key in KeyFile, or in the file PATH_SERVER_KEY_FILE.
	Key     []byte
	KeyFile string
	// Timeout bounds the opening of a connection, and each call. Default: 30 s.
	Timeout time.Duration
	// Size is the most connections. Default: 4.
	Size int
	// TLS, if it is not nil, is spoken.
	TLS *tls.Config
}

// Client is a tenant's connections, of which each call takes one.
type Client struct {
	options Options
	// places has an item for each call that is under way.
	places chan struct{}
	closed atomic.Bool
	lock   sync.Mutex
	// idle has the open connections that no call uses, the last one used behind.
	idle []*connection
}

type connection struct{ net.Conn }

// ReadKey reads a file that has one key: 32 hexadecimal digits of either case.
func ReadKey(path string) ([]byte, error) {
	text, err := os.ReadFile(path)
	if err != nil {
		return nil, err
	}
	words := strings.Fields(strings.ReplaceAll(string(text), ",", " "))
	if len(words) != 1 {
		return nil, &Invalid{fmt.Sprintf("%s has %d keys; a client wants a file with one", path, len(words))}
	}
	key, err := hex.DecodeString(words[0])
	if err != nil || len(key) != 16 {
		return nil, &Invalid{path + " has no key: 32 hexadecimal digits"}
	}
	return key, nil
}

func checked(options Options) (Options, error) {
	if options.Address == "" {
		options.Address = os.Getenv("PATH_SERVER_AT")
	}
	if options.Address == "" {
		return options, &Invalid{"give the server's address, or set PATH_SERVER_AT"}
	}
	host, port, err := net.SplitHostPort(options.Address)
	number, fault := strconv.ParseUint(port, 10, 16)
	if err != nil || fault != nil || number == 0 || host == "" || strings.Contains(host, "/") {
		return options, &Invalid{fmt.Sprintf("an address is HOST:PORT without a scheme or a path, not %q", options.Address)}
	}
	if options.Key == nil {
		path := options.KeyFile
		if path == "" {
			path = os.Getenv("PATH_SERVER_KEY_FILE")
		}
		if path == "" {
			return options, &Invalid{"give the tenant's key or its file, or set PATH_SERVER_KEY_FILE"}
		}
		if options.Key, err = ReadKey(path); err != nil {
			return options, err
		}
	}
	if options.Timeout == 0 {
		options.Timeout = 30 * time.Second
	}
	if options.Size == 0 {
		options.Size = 4
	}
	if len(options.Key) != 16 {
		return options, &Invalid{fmt.Sprintf("a key has 16 bytes, not %d: ReadKey makes them of 32 hexadecimal digits", len(options.Key))}
	}
	if options.Timeout < 0 || options.Size < 0 {
		return options, &Invalid{fmt.Sprintf("a timeout and a size are above 0, not %v and %d", options.Timeout, options.Size)}
	}
	return options, nil
}

// Connect opens a client and its first connection. It sends nothing: a key that the server does not know is refused at the first call.
func Connect(options Options) (*Client, error) {
	options, err := checked(options)
	if err != nil {
		return nil, err
	}
	client := &Client{options: options, places: make(chan struct{}, options.Size)}
	first, err := client.open(context.Background(), time.Now().Add(options.Timeout))
	if err != nil {
		return nil, err
	}
	client.give(first)
	return client, nil
}

// Close closes the client for good, behind the calls that are under way.
func (it *Client) Close() {
	if it.closed.Swap(true) {
		return
	}
	for count := 0; count < it.options.Size; count++ {
		it.places <- struct{}{}
	}
	for found := it.take(); found != nil; found = it.take() {
		found.Close()
	}
}

func (it *Client) take() *connection {
	it.lock.Lock()
	defer it.lock.Unlock()
	if len(it.idle) == 0 {
		return nil
	}
	found := it.idle[len(it.idle)-1]
	it.idle = it.idle[:len(it.idle)-1]
	return found
}

func (it *Client) give(found *connection) {
	it.lock.Lock()
	defer it.lock.Unlock()
	it.idle = append(it.idle, found)
}

func (it *Client) open(ctx context.Context, deadline time.Time) (*connection, error) {
	bounded, stop := context.WithDeadline(ctx, deadline)
	defer stop()
	dial := (&net.Dialer{}).DialContext
	if it.options.TLS != nil {
		dial = (&tls.Dialer{Config: it.options.TLS}).DialContext
	}
	found, err := dial(bounded, "tcp", it.options.Address)
	if err == nil {
		return &connection{found}, nil
	}
	if ctx.Err() != nil {
		return nil, ctx.Err()
	}
	return nil, &Broken{Why: "no new connection: " + err.Error(), IsLate: bounded.Err() != nil, cause: err}
}

var last = func() *atomic.Uint32 {
	var seed [4]byte
	if _, err := rand.Read(seed[:]); err != nil {
		panic(err)
	}
	found := &atomic.Uint32{}
	found.Store(binary.BigEndian.Uint32(seed[:]))
	return found
}()

// frame is a request's bytes on the wire, and its number: a counter of the process, which begins at random.
func (it *Client) frame(request Request) ([]byte, uint32) {
	number := last.Add(1)
	data := binary.BigEndian.AppendUint32(make([]byte, 0, 25+len(request.fields)), uint32(21+len(request.fields)))
	data = binary.BigEndian.AppendUint32(append(data, request.code), number)
	return append(append(data, it.options.Key...), request.fields...), number
}

// reply reads the next reply and judges it.
func (it *connection) reply(request Request, number uint32) (any, error) {
	head := make([]byte, 4)
	if _, err := io.ReadFull(it, head); err != nil {
		return nil, broken(err)
	}
	length := binary.BigEndian.Uint32(head)
	if length < 5 || length > replyLimit {
		return nil, &Broken{Why: fmt.Sprintf("a reply's body has %d bytes", length)}
	}
	body := make([]byte, length)
	if _, err := io.ReadFull(it, body); err != nil {
		return nil, broken(err)
	}
	return outcome(request, number, body)
}

func outcome(request Request, number uint32, body []byte) (any, error) {
	if body[0] == 255 {
		return nil, &Broken{Why: "the server met a framing fault"}
	}
	if found := binary.BigEndian.Uint32(body[1:5]); found != number {
		return nil, &Broken{Why: fmt.Sprintf("a reply has the number %d in the place of %d", found, number)}
	}
	rest := &payload{rest: body[5:]}
	if body[0] == 0 {
		value := request.read(rest)
		if rest.isBad || len(rest.rest) != 0 {
			return nil, &Broken{Why: "the payload is not one of the command"}
		}
		return value, nil
	}
	if len(rest.rest) != 0 {
		return nil, &Broken{Why: "a refusal has a payload"}
	}
	refused := Refused{Status: body[0], Name: fmt.Sprintf("Status%d", body[0]), Sentence: "the server is newer than this client"}
	if found := statuses[body[0]]; found != nil {
		refused = *found
	}
	refused.Command, refused.Collection, refused.Document = request.command, request.collection, request.document
	refused.text = request.text
	return nil, &refused
}

func broken(err error) error {
	var late net.Error
	if errors.As(err, &late) && late.Timeout() {
		return &Broken{Why: "no answer in time", IsLate: true, cause: err}
	}
	return &Broken{Why: "the connection ended: " + err.Error(), IsLost: true, cause: err}
}

// lend gives a connection to a call for itself, and takes it back if it can be used again.
func (it *Client) lend(ctx context.Context, deadline time.Time, use func(*connection) error) error {
	timer := time.NewTimer(time.Until(deadline))
	defer timer.Stop()
	if it.closed.Load() {
		return &Broken{Why: "the client is closed"}
	}
	select {
	case it.places <- struct{}{}:
	case <-ctx.Done():
		return ctx.Err()
	case <-timer.C:
		if it.closed.Load() {
			return &Broken{Why: "the client is closed"}
		}
		return &Broken{Why: "no connection of the client came free in time", IsLate: true, cause: os.ErrDeadlineExceeded}
	}
	defer func() { <-it.places }()
	found := it.take()
	if found != nil && (found.SetDeadline(deadline) != nil || !found.isUsable()) {
		found.Close()
		found = nil
	}
	if found == nil {
		var err error
		if found, err = it.open(ctx, deadline); err != nil {
			return err
		}
	}
	err := found.run(ctx, deadline, use)
	var refused *Refused
	if err != nil && !errors.As(err, &refused) {
		found.Close()
	} else {
		it.give(found)
	}
	return err
}

// isUsable says whether the next request may go over the connection: the server has not ended it, and has sent nothing that nobody asked for.
// Behind TLS, what came may be its own.
func (it *connection) isUsable() bool {
	plain, isTLS := it.Conn, false
	if secret, ok := plain.(*tls.Conn); ok {
		plain, isTLS = secret.NetConn(), true
	}
	raw, err := plain.(*net.TCPConn).SyscallConn()
	if err != nil {
		return false
	}
	isUsable := false
	err = raw.Read(func(descriptor uintptr) bool {
		var one [1]byte
		count, _, fault := syscall.Recvfrom(int(descriptor), one[:], syscall.MSG_PEEK|syscall.MSG_DONTWAIT)
		isUsable = fault == syscall.EAGAIN || isTLS && fault == nil && count > 0
		return true
	})
	return err == nil && isUsable
}

func (it *connection) run(ctx context.Context, deadline time.Time, use func(*connection) error) error {
	it.SetDeadline(deadline)
	ended, over := make(chan struct{}), make(chan struct{})
	go func() {
		defer close(over)
		select {
		case <-ctx.Done():
			it.SetDeadline(time.Unix(1, 0))
		case <-ended:
		}
	}()
	err := use(it)
	close(ended)
	<-over
	if err != nil && ctx.Err() != nil {
		return ctx.Err()
	}
	return err
}

func (it *Client) call(ctx context.Context, request Request) (any, error) {
	if err := request.check(); err != nil {
		return nil, err
	}
	deadline := time.Now().Add(it.options.Timeout)
	value, err := it.once(ctx, deadline, request)
	var lost *Broken
	if request.isRead && errors.As(err, &lost) && lost.IsLost {
		value, err = it.once(ctx, deadline, request)
	}
	return value, err
}

func (it *Client) once(ctx context.Context, deadline time.Time, request Request) (value any, err error) {
	err = it.lend(ctx, deadline, func(found *connection) error {
		data, number := it.frame(request)
		if _, fault := found.Write(data); fault != nil {
			return broken(fault)
		}
		value, err = found.reply(request, number)
		return err
	})
	return value, err
}

// Result is what a request of a pipeline gave: its value, or a *Refused.
type Result struct {
	Value any
	Err   error
}

// Pipeline sends requests over one connection without waiting for each reply, and gives a result for each. The timeout bounds the wait for each
// reply. If it ends with an error, the results are those of the replies that came. If a request is invalid, nothing was sent.
func (it *Client) Pipeline(ctx context.Context, requests []Request) ([]Result, error) {
	for _, request := range requests {
		if err := request.check(); err != nil {
			return nil, err
		}
	}
	results := make([]Result, 0, len(requests))
	err := it.lend(ctx, time.Now().Add(it.options.Timeout), func(found *connection) error {
		frames, numbers := make([][]byte, len(requests)), make([]uint32, len(requests))
		for place, request := range requests {
			frames[place], numbers[place] = it.frame(request)
		}
		written := make(chan error, 1)
		go func() {
			buffers := net.Buffers(frames)
			_, err := buffers.WriteTo(found.Conn)
			written <- err
		}()
		for place, request := range requests {
			value, err := found.reply(request, numbers[place])
			var refused *Refused
			if err != nil && !errors.As(err, &refused) {
				found.Close()
				<-written
				return err
			}
			results = append(results, Result{value, err})
			if ctx.Err() == nil {
				found.SetDeadline(time.Now().Add(it.options.Timeout))
			}
		}
		if err := <-written; err != nil {
			return broken(err)
		}
		return nil
	})
	return results, err
}

// Put keeps a JSON text under a collection and a document, in the place of one that is there.
func (it *Client) Put(ctx context.Context, collection, document string, text []byte) error {
	_, err := it.call(ctx, Put(collection, document, text))
	return err
}

// PutNew keeps a JSON text where no document is there; the refusal is Exists.
func (it *Client) PutNew(ctx context.Context, collection, document string, text []byte) error {
	_, err := it.call(ctx, PutNew(collection, document, text))
	return err
}

// PutJSON puts the JSON text of a value.
func (it *Client) PutJSON(ctx context.Context, collection, document string, value any) error {
	_, err := it.call(ctx, PutJSON(collection, document, value))
	return err
}

// Get gives the text of a document as it was put, byte for byte.
func (it *Client) Get(ctx context.Context, collection, document string) ([]byte, error) {
	return as[[]byte](it.call(ctx, Get(collection, document)))
}

// GetJSON reads the text of a document into a value. In an `any`, a number is a json.Number, with its own digits.
func (it *Client) GetJSON(ctx context.Context, collection, document string, value any) error {
	text, err := it.Get(ctx, collection, document)
	if err != nil {
		return err
	}
	decoder := json.NewDecoder(bytes.NewReader(text))
	decoder.UseNumber()
	return decoder.Decode(value)
}

// Remove removes a document; the refusal is NotFound.
func (it *Client) Remove(ctx context.Context, collection, document string) error {
	_, err := it.call(ctx, Remove(collection, document))
	return err
}

// List gives the names of a collection's documents, in the order of their bytes.
func (it *Client) List(ctx context.Context, collection string) ([]string, error) {
	return as[[]string](it.call(ctx, List(collection)))
}

// Query gives the hits of a JSONPath query (RFC 9535) in each document of a collection.
func (it *Client) Query(ctx context.Context, collection, query string) ([]Hit, error) {
	return as[[]Hit](it.call(ctx, Query(collection, query)))
}

// Documents gives the names of the documents in which a query has a hit, each once.
func (it *Client) Documents(ctx context.Context, collection, query string) ([]string, error) {
	return as[[]string](it.call(ctx, Documents(collection, query)))
}

// Drop removes a collection with all its documents; the refusal is NotFound.
func (it *Client) Drop(ctx context.Context, collection string) error {
	_, err := it.call(ctx, Drop(collection))
	return err
}

// Usage gives what the tenant keeps.
func (it *Client) Usage(ctx context.Context) (Usage, error) {
	return as[Usage](it.call(ctx, Use()))
}

// Ping gives the time that a USAGE took: whether the server answers, and knows the key.
func (it *Client) Ping(ctx context.Context) (time.Duration, error) {
	began := time.Now()
	_, err := it.Usage(ctx)
	return time.Since(began), err
}

func as[Value any](value any, err error) (Value, error) {
	found, _ := value.(Value)
	return found, err
}
