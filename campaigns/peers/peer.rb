# Signs, presigns, writes and reads events and chunks by the gems aws-sigv4, aws-eventstream and aws-sdk-core: a line of JSON in and one
# out for each task, as peers.py has them.
require 'json'
require 'stringio'
require 'aws-sigv4'
require 'aws-eventstream'
require 'aws-sdk-core'
require 'net/http'

# The clock of the gems.
class << Time
  attr_accessor :fixed
  alias_method :real_now, :now

  def now
    fixed ? at(fixed) : real_now
  end
end

def signer(task)
  Aws::Sigv4::Signer.new(
    service: task['Name'], region: task['Region'], access_key_id: task['Key'], secret_access_key: task['Secret'],
    session_token: task['Token'].empty? ? nil : task['Token'], uri_escape_path: !task['Once'], normalize_path: !task['Once'],
    apply_checksum_header: false
  )
end

def sign(task)
  headers = task['Headers'].to_h.merge('x-amz-date' => Time.at(task['At']).utc.strftime('%Y%m%dT%H%M%SZ'), 'x-amz-content-sha256' => task['Digest'])
  headers.delete('x-amz-content-sha256') unless task['Once']
  request = { http_method: task['Method'], url: task['Url'], headers: headers, body: [task['Body']].pack('H*') }
  signer(task).sign_request(**request).headers['authorization']
end

def presign(task)
  request = { http_method: task['Method'], url: task['Url'], headers: task['Headers'].to_h, body_digest: task['Digest'] }
  signer(task).presign_url(**request, time: Time.at(task['At']), expires_in: task['Expires']).to_s
end

def decoded(frame)
  Aws::EventStream::Decoder.new(format: false).decode_chunk(frame)[0]
end

def encoded(headers, payload)
  Aws::EventStream::Encoder.new.encode(Aws::EventStream::Message.new(headers: headers, payload: StringIO.new(payload)))
end

def again(frame)
  message = decoded(frame)
  encoded(message.headers, message.payload.read)
end

# The signed frames of messages, and of the empty one that closes the stream; in the gem's own order of the headers where asked.
def write(task)
  signature = task['Seed']
  (task['Frames'] + ['']).map do |frame|
    inner = frame.empty? ? '' : again([frame].pack('H*'))
    headers, signature = signer(task).sign_event(signature, inner, Aws::EventStream::Encoder.new)
    headers = headers.to_a.reverse.to_h unless task['Once']
    encoded(headers, inner).unpack1('H*')
  end
end

# What the signed frames carry, written again, once each signature was computed again.
def read(task)
  signature = task['Seed']
  task['Frames'].filter_map do |frame|
    message = decoded([frame].pack('H*'))
    Time.fixed = message.headers[':date'].value / 1000
    inner = message.payload.read
    _, signature = signer(task).sign_event(signature, inner, Aws::EventStream::Encoder.new)
    raise 'signature' unless message.headers[':chunk-signature'].value.unpack1('H*') == signature

    again(inner).unpack1('H*') unless inner.empty?
  end
end

# The body in chunks, each as long as what is read at once.
def wrap(task)
  body = StringIO.new([task['Body']].pack('H*'))
  chunked = Aws::Plugins::ChecksumAlgorithm::AwsChunkedTrailerDigestIO.new(body, 'CRC32', 'x-amz-checksum-crc32')
  text = ''.b
  while (piece = chunked.read(task['Size'], ''.b))
    text << piece
  end
  text.unpack1('H*')
end

# The body that chunks hold, by the reader of HTTP's.
def unwrap(task)
  text = "HTTP/1.1 200 OK\r\ntransfer-encoding: chunked\r\n\r\n".b + [task['Body']].pack('H*')
  socket = Net::BufferedIO.new(StringIO.new(text))
  response = Net::HTTPResponse.read_new(socket)
  response.reading_body(socket, true) { response.body }.to_s.unpack1('H*')
end

$stdin.each_line do |line|
  task = JSON.parse(line)
  Time.fixed = task['At']
  begin
    puts JSON.generate(send(task['Do'], task))
  rescue StandardError => e
    puts JSON.generate({ error: e.message })
  end
  $stdout.flush
end
