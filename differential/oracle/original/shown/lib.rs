
// Appended by the judge's build; the lines above are the original's.

/// A query record as the judge sees it.
pub struct ShownQuery {
    pub id: Id,
    pub record_type: DnsRecordType,
    pub answered: bool,
    pub refresh: Option<Id>,
}

impl Clone for HappyEyeballs {
    fn clone(&self) -> Self {
        Self {
            id_generator: self.id_generator.clone(),
            dns_queries: self.dns_queries.clone(),
            connection_attempts: self.connection_attempts.clone(),
            ech_retries: self.ech_retries.clone(),
            network_config: self.network_config.clone(),
            host: self.host.clone(),
            port: self.port,
        }
    }
}

impl HappyEyeballs {
    /// The name under which the origin is known, none for an address.
    #[must_use]
    pub fn shown_name(&self) -> Option<&str> {
        match &self.host {
            Host::Domain(name) => Some(name),
            Host::Ip(_) => None,
        }
    }

    #[must_use]
    pub fn shown_queries(&self) -> Vec<ShownQuery> {
        self.dns_queries
            .iter()
            .map(|q| ShownQuery {
                id: q.id,
                record_type: q.record_type,
                answered: q.is_completed(),
                refresh: match q.refresh {
                    Refresh::InFlight(id) => Some(id),
                    Refresh::Idle | Refresh::Done => None,
                },
            })
            .collect()
    }

    #[must_use]
    pub fn shown_attempts(&self) -> &[ConnectionAttempt] {
        &self.connection_attempts
    }

    #[must_use]
    pub fn shown_listing(&self) -> Vec<Endpoint> {
        self.endpoints_to_attempt()
    }

    /// The same at another port of the origin.
    #[must_use]
    pub fn shown_listing_at(&mut self, port: u16) -> Vec<Endpoint> {
        self.port = port;
        self.endpoints_to_attempt()
    }

    #[must_use]
    pub fn shown_delay(&self) -> Duration {
        self.connection_attempt_delay()
    }
}
