//! The calls as `bindings/c/rolgunai.h` and `rolgunai_client.h` have them for a binding that doesn't read these. No
//! pointer is null.

use std::ffi::c_void;

#[derive(Debug)]
#[repr(C)]
pub struct Handle {
    pub manager: *mut c_void,
}

#[derive(Debug)]
#[repr(C)]
pub struct Client {
    pub at: *mut c_void,
}

/// A buffer where it lies.
#[repr(C)]
pub struct Frame {
    pub bytes: *const u8,
    pub size: usize,
}

/// A call of the kernel on a name or an id.
pub type NamedCall = unsafe extern "C" fn(*mut Handle, u32, *const u8, usize, *mut u32, *mut usize) -> u32;

unsafe extern "C" {
    pub safe fn rolgunai_version() -> u32;
    pub fn rolgunai_new(handle: *mut Handle, comms: usize) -> u32;
    pub fn rolgunai_new_with_decimals(handle: *mut Handle, comms: usize) -> u32;
    pub fn rolgunai_free(handle: *mut Handle) -> u32;
    pub fn rolgunai_last_result(handle: *mut Handle, reply: *mut u32, sent: *mut usize) -> u32;
    pub fn rolgunai_last_reason(handle: *mut Handle, reason: *mut u32, index: *mut u64) -> u32;
    pub fn rolgunai_copy_sent_part(
        handle: *mut Handle,
        message: usize,
        part: usize,
        out: *mut u8,
        out_size: usize,
        size: *mut usize,
    ) -> u32;
    pub fn rolgunai_copy_reply_part(
        handle: *mut Handle,
        part: usize,
        out: *mut u8,
        out_size: usize,
        size: *mut usize,
    ) -> u32;
    pub fn rolgunai_copy_last_text(handle: *mut Handle, out: *mut u8, out_size: usize, size: *mut usize) -> u32;
    pub fn rolgunai_play_line(
        handle: *mut Handle,
        line: *const u8,
        line_size: usize,
        out: *mut u8,
        out_size: usize,
        size: *mut usize,
    ) -> u32;
    pub fn rolgunai_handle_frames(
        handle: *mut Handle,
        client: u32,
        header: *const u8,
        header_size: usize,
        metadata: *const u8,
        metadata_size: usize,
        content: *const u8,
        content_size: usize,
        frames: *const Frame,
        count: usize,
        reply: *mut u32,
        sent: *mut usize,
    ) -> u32;
    pub fn rolgunai_register(
        handle: *mut Handle,
        client: u32,
        kind: u32,
        name: *const u8,
        name_size: usize,
        reply: *mut u32,
        sent: *mut usize,
    ) -> u32;
    pub fn rolgunai_unregister(
        handle: *mut Handle,
        client: u32,
        name: *const u8,
        name_size: usize,
        reply: *mut u32,
        sent: *mut usize,
    ) -> u32;
    pub fn rolgunai_launch_frames(
        handle: *mut Handle,
        client: u32,
        target: *const u8,
        target_size: usize,
        uuid: *const u8,
        uuid_size: usize,
        state: *const u8,
        state_size: usize,
        paths: *const u8,
        paths_size: usize,
        frames: *const Frame,
        count: usize,
        reply: *mut u32,
        sent: *mut usize,
    ) -> u32;
    pub fn rolgunai_push_frames(
        handle: *mut Handle,
        client: u32,
        id: *const u8,
        id_size: usize,
        state: *const u8,
        state_size: usize,
        paths: *const u8,
        paths_size: usize,
        frames: *const Frame,
        count: usize,
        reply: *mut u32,
        sent: *mut usize,
    ) -> u32;
    pub fn rolgunai_send_frames(
        handle: *mut Handle,
        client: u32,
        id: *const u8,
        id_size: usize,
        data: *const u8,
        data_size: usize,
        frames: *const Frame,
        count: usize,
        reply: *mut u32,
        sent: *mut usize,
    ) -> u32;
    pub fn rolgunai_close(
        handle: *mut Handle,
        client: u32,
        id: *const u8,
        id_size: usize,
        reply: *mut u32,
        sent: *mut usize,
    ) -> u32;
    pub fn rolgunai_state(handle: *mut Handle, id: *const u8, id_size: usize, reply: *mut u32, sent: *mut usize)
        -> u32;
}

/// A client's call on a name or an id.
pub type NamedClientCall = unsafe extern "C" fn(*mut Client, *const u8, usize, *mut u32, *mut usize) -> u32;

/// A client's read of a name or an id.
pub type NamedRead = unsafe extern "C" fn(*mut Client, u64, *const u8, usize, *mut u32, *mut usize) -> u32;

unsafe extern "C" {
    pub fn rolgunai_open_shared(client: *mut Client, comms: usize) -> u32;
    pub fn rolgunai_open_shared_with_decimals(client: *mut Client, comms: usize) -> u32;
    pub fn rolgunai_client_join(client: *mut Client, other: *mut Client) -> u32;
    pub fn rolgunai_client_free(client: *mut Client) -> u32;
    pub fn rolgunai_client_handle_frames(
        client: *mut Client,
        header: *const u8,
        header_size: usize,
        metadata: *const u8,
        metadata_size: usize,
        content: *const u8,
        content_size: usize,
        frames: *const Frame,
        count: usize,
        reply: *mut u32,
        sent: *mut usize,
    ) -> u32;
    pub fn rolgunai_client_register(
        client: *mut Client,
        kind: u32,
        name: *const u8,
        name_size: usize,
        reply: *mut u32,
        sent: *mut usize,
    ) -> u32;
    pub fn rolgunai_client_unregister(
        client: *mut Client,
        name: *const u8,
        name_size: usize,
        reply: *mut u32,
        sent: *mut usize,
    ) -> u32;
    pub fn rolgunai_client_launch_frames(
        client: *mut Client,
        target: *const u8,
        target_size: usize,
        uuid: *const u8,
        uuid_size: usize,
        state: *const u8,
        state_size: usize,
        paths: *const u8,
        paths_size: usize,
        frames: *const Frame,
        count: usize,
        reply: *mut u32,
        sent: *mut usize,
    ) -> u32;
    pub fn rolgunai_client_push_frames(
        client: *mut Client,
        id: *const u8,
        id_size: usize,
        state: *const u8,
        state_size: usize,
        paths: *const u8,
        paths_size: usize,
        frames: *const Frame,
        count: usize,
        reply: *mut u32,
        sent: *mut usize,
    ) -> u32;
    pub fn rolgunai_client_send_frames(
        client: *mut Client,
        id: *const u8,
        id_size: usize,
        data: *const u8,
        data_size: usize,
        frames: *const Frame,
        count: usize,
        reply: *mut u32,
        sent: *mut usize,
    ) -> u32;
    pub fn rolgunai_client_close(
        client: *mut Client,
        id: *const u8,
        id_size: usize,
        reply: *mut u32,
        sent: *mut usize,
    ) -> u32;
    pub fn rolgunai_client_state(
        client: *mut Client,
        since: u64,
        id: *const u8,
        id_size: usize,
        reply: *mut u32,
        sent: *mut usize,
    ) -> u32;
    pub fn rolgunai_client_target(
        client: *mut Client,
        since: u64,
        id: *const u8,
        id_size: usize,
        reply: *mut u32,
        sent: *mut usize,
    ) -> u32;
    pub fn rolgunai_client_infos(client: *mut Client, since: u64, reply: *mut u32, sent: *mut usize) -> u32;
    pub fn rolgunai_client_infos_of(
        client: *mut Client,
        since: u64,
        target: *const u8,
        target_size: usize,
        reply: *mut u32,
        sent: *mut usize,
    ) -> u32;
    pub fn rolgunai_client_show(client: *mut Client, shown: *mut u32) -> u32;
    pub fn rolgunai_client_last_result(client: *mut Client, reply: *mut u32, sent: *mut usize) -> u32;
    pub fn rolgunai_client_last_reason(client: *mut Client, reason: *mut u32, index: *mut u64) -> u32;
    pub fn rolgunai_client_copy_sent_part(
        client: *mut Client,
        message: usize,
        part: usize,
        out: *mut u8,
        out_size: usize,
        size: *mut usize,
    ) -> u32;
    pub fn rolgunai_client_copy_reply_part(
        client: *mut Client,
        part: usize,
        out: *mut u8,
        out_size: usize,
        size: *mut usize,
    ) -> u32;
    pub fn rolgunai_client_seen(client: *mut Client, seen: *mut u64, shown: *mut u32) -> u32;
}
