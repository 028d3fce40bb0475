/// Appended by the oracle's build: any XML, read as the source reads its own.
pub mod oracle {
    pub fn read(xml: &str) -> Result<super::FrameDefinition, quick_xml::DeError> {
        quick_xml::de::from_str(xml)
    }
}
