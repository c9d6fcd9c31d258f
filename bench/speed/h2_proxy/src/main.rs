//! An inbound proxy on the crates h2 and tokio, on one thread, with windows of 65,535 octets: what `hbone serve` is measured beside.
//! It reads a PROXY v2 header, answers each CONNECT with 200, and relays. It judges nobody.

use bytes::Bytes;
use h2::server::{Builder, SendResponse};
use h2::{RecvStream, SendStream};
use http::{Request, Response};
use std::future::poll_fn;
use tokio::io::{AsyncReadExt, AsyncWriteExt};
use tokio::net::tcp::{OwnedReadHalf, OwnedWriteHalf};
use tokio::net::{TcpListener, TcpStream};

type Done = Result<(), Box<dyn std::error::Error + Send + Sync>>;

#[tokio::main(flavor = "current_thread")]
async fn main() -> Done {
    let door = TcpListener::bind(std::env::args().nth(1).ok_or("usage: h2_proxy ADDRESS")?).await?;
    loop {
        let (link, _) = door.accept().await?;
        tokio::spawn(async { serve(link).await.unwrap_or(()) });
    }
}

async fn serve(mut link: TcpStream) -> Done {
    link.set_nodelay(true)?;
    let mut front = [0; 16];
    link.read_exact(&mut front).await?;
    let mut rest = vec![0; usize::from(u16::from_be_bytes([front[14], front[15]]))];
    link.read_exact(&mut rest).await?;
    let mut connection = Builder::new().max_concurrent_streams(100).handshake(link).await?;
    while let Some(opened) = connection.accept().await {
        let (request, respond) = opened?;
        tokio::spawn(async { tunnel(request, respond).await.unwrap_or(()) });
    }
    Ok(())
}

async fn tunnel(request: Request<RecvStream>, mut respond: SendResponse<Bytes>) -> Done {
    let to = request.uri().authority().ok_or("no authority")?.to_string();
    let upstream = TcpStream::connect(to).await?;
    upstream.set_nodelay(true)?;
    let (from, to) = upstream.into_split();
    let stream = respond.send_response(Response::new(()), false)?;
    let (up, down) = tokio::join!(relay_up(request.into_body(), to), relay_down(from, stream));
    up.and(down)
}

async fn relay_up(mut stream: RecvStream, mut to: OwnedWriteHalf) -> Done {
    while let Some(bytes) = stream.data().await {
        let bytes = bytes?;
        to.write_all(&bytes).await?;
        stream.flow_control().release_capacity(bytes.len())?;
    }
    Ok(to.shutdown().await?)
}

async fn relay_down(mut from: OwnedReadHalf, mut stream: SendStream<Bytes>) -> Done {
    let mut buffer = vec![0; 65_536];
    loop {
        let count = from.read(&mut buffer).await?;
        if count == 0 {
            return Ok(stream.send_data(Bytes::new(), true)?);
        }
        let mut bytes = Bytes::copy_from_slice(&buffer[..count]);
        while !bytes.is_empty() {
            stream.reserve_capacity(bytes.len());
            let room = poll_fn(|context| stream.poll_capacity(context)).await.ok_or("the stream is over")??;
            stream.send_data(bytes.split_to(room.min(bytes.len())), false)?;
        }
    }
}
